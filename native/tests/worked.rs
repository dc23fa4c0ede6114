//! Worked examples: the requests of `tests/lines`, and what no request asks.

use std::{fs, thread};
use wgsl_types_proved::builtin::type_builtin_fn;
use wgsl_types_proved::conv::{convert_all, convert_all_ty, convert_ty};
use wgsl_types_proved::mem::{PlacedMember, StructLayout};
use wgsl_types_proved::requests::{answer, standard_answer, Error as NoAnswer};
use wgsl_types_proved::syntax::{
    AccessMode, AddressSpace, BinaryOperator, Enumerant, TexelFormat, UnaryOperator,
};
use wgsl_types_proved::ty::{SamplerType, StructType, MAX_DEPTH};
use wgsl_types_proved::{Error, Type};
use Type::{Bool, F32, I32};

/// Each request has the answer behind its last ` => `, where `\n` parts two lines; one with `bad line` can't be read.
fn expect_answers(folder: &str, ask: fn(&str) -> Result<String, NoAnswer>) {
    let files = fs::read_dir(folder).unwrap().map(|entry| entry.unwrap().path());
    let mut count = 0;
    for path in files.filter(|path| path.is_file()) {
        let text = fs::read_to_string(path).unwrap();
        for row in text.lines().filter(|row| !row.is_empty() && !row.starts_with('#')) {
            let (request, expected) = row.rsplit_once(" => ").expect(row);
            let found = match ask(request) {
                Ok(told) | Err(NoAnswer::Refused(told)) => told.replace('\n', "\\n"),
                Err(_) => "bad line".to_string(),
            };
            assert_eq!(found, expected, "{request}");
            count += 1;
        }
    }
    assert!(count > 1000, "{count}");
}

#[test]
fn requests_are_answered() {
    expect_answers("tests/lines", answer);
    expect_answers("tests/lines/standard", standard_answer);
}

fn reference(space: AddressSpace, of: Type) -> Type {
    Type::Ref(space, Box::new(of), AccessMode::Read)
}

#[test]
fn common_types() {
    assert_eq!(convert_all_ty(&[]), None);
    let variable = reference(AddressSpace::Function, Type::AbstractInt);
    assert_eq!(convert_all_ty(&[variable, Type::AbstractInt, I32]), Some(&I32));
    let (first, second) = (F32, F32);
    assert!(std::ptr::eq(convert_ty(&first, &second).unwrap(), &second));
    assert_eq!(convert_all::<Type>(&[]), None);
}

#[test]
fn pointers() {
    let variable = reference(AddressSpace::Function, I32);
    assert_eq!(variable.op_ref().and_then(|ty| ty.op_deref()), Ok(variable));
    assert_eq!(reference(AddressSpace::Handle, I32).op_ref(), Err(Error::PtrHandle));
}

#[test]
fn result_structs() {
    let vec2 = |of| Type::vector(2, of);
    let result = type_builtin_fn("frexp", None, &[vec2(F32)]).unwrap().unwrap().unwrap_struct();
    let members = [("fract", vec2(F32)), ("exp", vec2(I32))];
    assert_eq!(*result, StructType::new("__frexp_result_vec2_f32", members));
}

#[test]
fn layouts() {
    let of = StructType::new("S", [("a", F32), ("b", Type::vector(3, F32)), ("c", F32)]);
    let placed = |offset, size, align| PlacedMember { offset, size, align };
    let members = vec![placed(0, 4, 4), placed(16, 12, 16), placed(28, 4, 4)];
    assert_eq!(of.layout(), Some(StructLayout { members, size: 32, align: 16 }));
    assert_eq!((of.size_of(), of.align_of()), (Some(32), Some(16)));
    assert_eq!(of.offsets(), Some(vec![0, 16, 28]));
    let flags = StructType::new("F", [("a", Type::vector(3, Bool))]);
    assert_eq!((flags.layout(), flags.offsets()), (None, None));
    let empty = StructType { name: "E".to_string(), members: vec![] };
    assert_eq!((empty.size_of(), empty.align_of(), empty.layout()), (None, Some(0), None));
}

fn nested(levels: usize, around: impl Fn(Type) -> Type) -> Type {
    (1..levels).fold(F32, |ty, _| around(ty))
}

#[test]
fn the_deepest_types_are_answered_on_a_small_stack() {
    let deepest = || {
        let arrays = nested(MAX_DEPTH, |ty| Type::array(None, ty));
        let structs = nested(MAX_DEPTH, |ty| Type::from(StructType::new("S", [("a", ty)])));
        for ty in [arrays, structs] {
            assert_eq!(ty.depth(), MAX_DEPTH);
            assert_eq!(convert_all_ty([&ty]), Some(&ty));
            let refused = Error::Binary(BinaryOperator::Addition, ty.clone(), ty.clone());
            assert_eq!(ty.op_add(&ty), Err(refused));
        }
    };
    let stack = if cfg!(debug_assertions) { 2 << 20 } else { 512 << 10 };
    thread::Builder::new().stack_size(stack).spawn(deepest).unwrap().join().unwrap();
}

#[test]
fn deeper_types_are_answered() {
    assert_eq!(nested(MAX_DEPTH + 1, |ty| Type::array(Some(1), ty)).size_of(), Some(4));
}

#[test]
fn names_are_padded() {
    assert_eq!(format!("{:>10}|", AddressSpace::Uniform), "   uniform|");
    assert_eq!(format!("{:*<6}|", AccessMode::Read), "read**|");
    let format = Enumerant::TexelFormat(TexelFormat::Rgba8Unorm);
    assert_eq!(format!("{format:.4}|{:^4}|", BinaryOperator::ShiftLeft), "rgba| << |");
}

/// Each method refuses, as `$refused` says of its operator.
macro_rules! expect_refused {
    ($refused:ident, $ty:ident $operands:tt: $($operator:ident $method:ident)*) => {
        $(assert_eq!($ty.$method $operands, Err($refused($operator)));)*
    };
}

#[test]
fn each_operator_is_refused_by_its_name() {
    use BinaryOperator::*;
    use UnaryOperator::*;
    let texture = Type::Sampler(SamplerType::Sampler);
    let unary = |operator| Error::Unary(operator, texture.clone());
    let binary = |operator| Error::Binary(operator, texture.clone(), Bool);
    expect_refused! {
        unary, texture():
        LogicalNegation op_not  Negation op_neg  BitwiseComplement op_bitnot  AddressOf op_ref  Indirection op_deref
    }
    expect_refused! {
        binary, texture(&Bool):
        ShortCircuitOr op_or  ShortCircuitAnd op_and  Addition op_add  Subtraction op_sub  Multiplication op_mul
        Division op_div  Remainder op_rem  Equality op_eq  Inequality op_ne  LessThan op_lt  LessThanEqual op_le
        GreaterThan op_gt  GreaterThanEqual op_ge  BitwiseOr op_bitor  BitwiseAnd op_bitand  BitwiseXor op_bitxor
        ShiftLeft op_shl  ShiftRight op_shr
    }
}
