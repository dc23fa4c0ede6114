//! Refusals as they are printed, and the signatures in them.

use crate::asked::{one_type, parameters, types};
use crate::tables::rows;
use wgsl_types_proved::builtin::typecheck_struct_ctor;
use wgsl_types_proved::inst::LiteralInstance as Literal;
use wgsl_types_proved::syntax::{BinaryOperator::ShortCircuitOr, UnaryOperator::AddressOf};
use wgsl_types_proved::CallSignature;
use wgsl_types_proved::Error::{self, *};
use wgsl_types_proved::Type::{Bool, F16, F32, I32, U32};

/// Refusals of all kinds, whose messages are in `tests/tables/refusals.tsv`.
fn refusals() -> Vec<Error> {
    macro_rules! listed {
        ($($refusal:ident$(($($field:expr),*))?)*) => { vec![$($refusal $(($($field),*))?),*] };
    }
    let (vector, name) = (|| one_type("vec3f"), str::to_string);
    let tplt = Some(parameters("f32, 3"));
    let call = CallSignature { name: name("array"), tplt, args: vec![I32] };
    listed! {
        NotConstructible(F16) SampledType(F16) MissingTemplate("ptr") Conversion(I32, F32)
        ConvOverflow(Literal::AbstractInt(-1), U32) NotIndexable(Bool) ParamType(F32, Bool) WriteRefType(I32, U32)
        NotWrite NotRead NotReadWrite PtrHandle PtrVecComp Unary(AddressOf, I32) Binary(ShortCircuitOr, I32, Bool)
        CompwiseBinary(I32, U32) AddOverflow SubOverflow MulOverflow DivByZero RemZeroDiv
        ShlOverflow(32, Literal::U32(1)) ShrOverflow(64, Literal::I64(-1)) Builtin("no such texture") TemplateArgs("array")
        Todo(name("x")) UnknownType(name("vec5")) UnexpectedTemplate(name("i32")) Component(F32, name("xy"))
        ParamCount(name("vec4"), 4, 130) NotScalar(vector()) OutOfBounds(3, vector(), 3) Signature(call)
    }
}

/// Each refusal and its copy print as the message.
#[test]
fn refusals_print_their_messages() {
    let (refusals, rows) = (refusals(), rows("tables/refusals.tsv"));
    assert_eq!(refusals.len(), rows.len());
    for (error, [shown, message]) in refusals.into_iter().zip(rows) {
        let copy = error.clone();
        assert_eq!((format!("{error:?}"), error.to_string()), (shown, message.clone()));
        assert_eq!((copy.to_string(), copy), (message, error));
    }
}

#[test]
fn refusals_differ_if_they_say_different_things() {
    let refusals = [refusals(), vec![Conversion(F32, I32), CompwiseBinary(I32, F32)]].concat();
    for (index, one) in refusals.iter().enumerate() {
        for (other_index, other) in refusals.iter().enumerate() {
            assert_eq!(one == other, index == other_index, "{one} and {other}");
        }
    }
}

#[test]
fn structs_are_made_of_their_members() {
    let of = one_type("struct S { a: f32, b: i32 }").unwrap_struct();
    for (args, wanted) in [
        ("", "fits"),
        ("AbstractInt, AbstractInt", "fits"),
        ("AbstractFloat", "incorrect number of arguments to `S`, expected `2`, got `1`"),
        ("f32, AbstractFloat", "invalid parameter type, expected `i32`, got `AbstractFloat`"),
        ("bool, bool", "invalid parameter type, expected `f32`, got `bool`"),
        ("ref<private, f32, read>, i32", "fits"),
        (
            "f32, ref<private, i32, write>",
            "invalid parameter type, expected `i32`, got `ref<private, i32, write>`",
        ),
    ] {
        let found = match typecheck_struct_ctor(&of, &types(args)) {
            Ok(()) => "fits".to_string(),
            Err(refused) => refused.to_string(),
        };
        assert_eq!(found, wanted, "of `{args}`");
    }
}
