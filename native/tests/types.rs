//! Types, also strange ones: their kinds, what is made of them, copies, equality, 300 layers; and literals.

use crate::asked::{one_type, parameters, types};
use crate::tables::rows;
use wgsl_types_proved::builtin::type_builtin_fn;
use wgsl_types_proved::conv::conversion_rank;
use wgsl_types_proved::syntax::SampledType;
use wgsl_types_proved::tplt::TpltParam;
use wgsl_types_proved::ty::{StructMemberType, StructType, Ty};
use wgsl_types_proved::{CallSignature, Error, Instance, Type};

/// Two copies equal the type: Rust's own, and that of the proved sources, which `inner_ty` makes of
/// an element. Returns the latter.
fn copied(ty: Type) -> Type {
    assert_eq!(ty.clone(), ty);
    let copy = Type::array(None, ty.clone()).inner_ty();
    assert_eq!(copy, ty);
    copy
}

/// A number, or `none`.
fn or_none(number: Option<u32>) -> String {
    number.map_or("none".to_string(), |number| number.to_string())
}

/// A literal, the value that it is, and their types.
fn literal(parameters: &[TpltParam]) -> String {
    let [TpltParam::Instance(value)] = parameters else { panic!("{parameters:?}") };
    let Instance::Literal(literal) = value;
    format!("{literal} {value} {} {} {}", literal.ty(), value.ty(), value.inner_ty())
}

#[test]
fn signatures_and_parameters_are_copied() {
    let tplt = parameters("f32, 3");
    assert_eq!(tplt.clone(), tplt);
    let call = CallSignature { name: "array".to_string(), tplt: Some(tplt), args: vec![Type::I32] };
    assert_eq!(call.clone(), call);
    // The refusal has the proved sources' copies of the parameters.
    let refused = type_builtin_fn(&call.name, call.tplt.as_deref(), &call.args);
    assert_eq!(refused, Err(Error::Signature(call)));
}

#[test]
fn structs_and_members_are_copied() {
    let ty = copied(one_type("struct S { @align(16) a: vec2f }"));
    let mut member = StructMemberType::new("a".to_string(), Type::vector(2, Type::F32));
    member.align = Some(16);
    assert_eq!(member.clone(), member);
    let of = StructType { name: "S".to_string(), members: vec![member] };
    assert_eq!(of.clone(), of);
    assert_eq!(Type::from(of), ty);
}

#[test]
fn members_are_made_without_attributes() {
    let member = StructMemberType::new("a".to_string(), Type::F32);
    let text = format!("{} {} {:?} {:?}", member.name, member.ty, member.size, member.align);
    assert_eq!(text, "a f32 None None");
}

#[test]
fn types_are_taken_apart() {
    assert_eq!(*one_type("atomic<i32>").unwrap_atomic(), Type::I32);
    assert_eq!(one_type("vec3h").unwrap_vec(), (3, Box::new(Type::F16)));
    assert_eq!(one_type("struct S { }").unwrap_struct().name, "S");
}

#[test]
fn three_types_are_sampled() {
    assert_eq!(SampledType::try_from(&Type::U32).map(Type::from), Ok(Type::U32));
    let refused = SampledType::try_from(&Type::F16).unwrap_err();
    let message = "invalid sampled type, expected `i32`, `u32` or `f32`, got `f16`";
    assert_eq!(refused.to_string(), message);
}

/// Predicates with their names.
macro_rules! predicates {
    ($($predicate:ident)*) => {
        [$((stringify!($predicate), Type::$predicate as fn(&Type) -> bool)),*]
    };
}

/// The kinds that a type is of.
fn kinds(ty: &Type) -> String {
    let all = predicates! {
        is_scalar is_numeric is_integer is_float is_abstract is_concrete is_storable is_array is_vec is_mat
        is_bool is_i32 is_u32 is_f32 is_i64 is_u64 is_f64 is_abstract_int
    };
    let of = all.iter().filter(|(_, is_of_kind)| is_of_kind(ty));
    of.map(|(name, _)| name.trim_start_matches("is_")).collect::<Vec<_>>().join(" ")
}

/// The size, the alignment and the least size of a type.
fn layout(ty: &Type) -> String {
    [ty.size_of(), ty.align_of(), ty.min_size_of()].map(or_none).join(" ")
}

#[test]
fn types_answer_as_the_table_says() {
    for [asked, text, answer] in rows("tables/types.tsv") {
        let types = if asked == "literal" { Vec::new() } else { types(&text) };
        let found = match (&*asked, &types[..]) {
            ("literal", _) => literal(&parameters(&text)),
            ("inner", [ty]) => ty.inner_ty().to_string(),
            ("ty", [ty]) => ty.ty().to_string(),
            ("copied", [ty]) => copied(ty.clone()).to_string(),
            ("concrete", [ty]) => ty.concretize().to_string(),
            ("loaded", [ty]) => ty.clone().loaded().to_string(),
            ("kinds", [ty]) => kinds(ty),
            ("layout", [ty]) => layout(ty),
            ("rank", [from, to]) => or_none(conversion_rank(from, to)),
            _ => panic!("{asked} of `{text}`"),
        };
        assert_eq!(found, answer, "{asked} of `{text}`");
    }
}

#[test]
fn strange_types_equal_themselves_alone() {
    let all: Vec<Type> = rows("tables/strange.tsv").iter().map(|[text]| one_type(text)).collect();
    for (index, one) in all.iter().enumerate() {
        for (other_index, other) in all.iter().enumerate() {
            assert_eq!(one == other, index == other_index, "{one} and {other}");
        }
        copied(one.clone());
    }
}
