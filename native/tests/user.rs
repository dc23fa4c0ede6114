//! A program as users write it: operators, a constructor, a call, conversions.

use wgsl_types_proved::builtin::{type_binary_op, type_builtin_fn, type_ctor};
use wgsl_types_proved::conv::{convert, convert_all, convert_all_inner_to, convert_all_to};
use wgsl_types_proved::conv::{convert_inner, Convert};
use wgsl_types_proved::syntax::BinaryOperator::{Addition, Multiplication};
use wgsl_types_proved::tplt::TpltParam;
use wgsl_types_proved::ty::Ty;
use wgsl_types_proved::{Error, Type};
use Type::{AbstractFloat, AbstractInt, Bool, F16, F32, I32, U32};

/// The type of `offset + direction * distance`.
fn moved(offset: &Type, direction: &Type, distance: &Type) -> Result<Type, Error> {
    type_binary_op(Addition, offset, &type_binary_op(Multiplication, direction, distance)?)
}

#[test]
fn expressions_have_types() {
    let template = [TpltParam::Type(F32)];
    let made = type_ctor("vec3", Some(&template), &[AbstractInt, AbstractInt, AbstractInt]);
    assert_eq!(made, Ok(Type::vector(3, F32)));
    let vector = made.unwrap();
    assert_eq!(moved(&vector, &AbstractFloat, &vector), Ok(Type::vector(3, F32)));
    assert_eq!(type_builtin_fn("max", None, &[AbstractInt, F16]), Ok(Some(F16)));
}

#[test]
fn a_refusal_names_operator_and_operands() {
    assert_eq!(moved(&F32, &Bool, &I32), Err(Error::Binary(Multiplication, Bool, I32)));
}

/// A type with the number of its input line. It converts as the type does, and stays on its line.
#[derive(Clone, Debug, PartialEq)]
struct Typed(Type, u32);

impl Ty for Typed {
    fn ty(&self) -> Type {
        self.0.clone()
    }
}

impl Convert for Typed {
    fn convert_to(&self, ty: &Type) -> Option<Typed> {
        Some(Typed(self.0.convert_to(ty)?, self.1))
    }
}

#[test]
fn values_of_a_program_convert_by_its_own_rule() {
    let (whole, float) = (Typed(AbstractInt, 1), Typed(F32, 2));
    assert_eq!(convert(&whole, &float), Some((Typed(F32, 1), Typed(F32, 2))));
    let both = [whole.clone(), float];
    assert_eq!(convert_all(&both), Some(vec![Typed(F32, 1), Typed(F32, 2)]));
    assert_eq!(convert_all_to(&both, &F16), None);
    assert_eq!(convert_all::<Typed>(&[]), None);
    assert_eq!(whole.concretize(), Some(Typed(I32, 1)));
    // Without a rule for what is inside, a value is converted as a whole.
    let vector = Typed(Type::vector(2, AbstractInt), 3);
    assert_eq!(vector.inner_ty(), vector.0);
    assert_eq!(convert_inner(&vector, &Type::vector(2, F32)), None);
    let other = Type::vector(2, U32);
    assert_eq!(convert_inner(&whole, &other), Some((Typed(U32, 1), other)));
    assert_eq!(convert_all_inner_to(&[whole], &U32), Some(vec![Typed(U32, 1)]));
}
