//! The types of operators (WGSL, "Expressions"), of constructors and of calls (WGSL, "Built-in Functions"), by the rules of
//! wgsl-types. The operators are also methods of [`Type`].

mod operators;

use crate::error::Error;
#[doc(hidden)]
pub use crate::proved::wgsl_calls::call::find_call;
use crate::proved::wgsl_calls::{call, constructor};
use crate::proved::wgsl_core::operators as proved;
pub use crate::proved::wgsl_core::operators::Candidate;
use crate::shim::{settled, std::alloc::Global};
use crate::syntax::{BinaryOperator, UnaryOperator};
use crate::tplt::TpltParam;
use crate::ty::{StructType, Type};

/// The type of a unary expression. [`Error::PtrHandle`] for `&` of a reference in the handle space, [`Error::Unary`] with
/// the operator and the operand for any other operand that the operator doesn't take.
///
/// ```
/// use wgsl_types_proved::{builtin::type_unary_op, syntax::UnaryOperator::BitwiseComplement, Type};
///
/// assert_eq!(type_unary_op(BitwiseComplement, &Type::U32), Ok(Type::U32));
/// let refused = type_unary_op(BitwiseComplement, &Type::F32).unwrap_err();
/// assert_eq!(refused.to_string(), "cannot use unary operator `~` on type `f32`");
/// ```
pub fn type_unary_op(operator: UnaryOperator, operand: &Type) -> Result<Type, Error> {
    settled(proved::type_unary_op(Global, operator, operand))
}

/// The type of a binary expression, or [`Error::Binary`] with the operator and both operands.
///
/// ```
/// use wgsl_types_proved::{builtin::type_binary_op, syntax::BinaryOperator::Multiplication, Type};
///
/// let matrix = Type::matrix(2, 3, Type::F32);
/// let product = type_binary_op(Multiplication, &matrix, &Type::vector(2, Type::AbstractInt))?;
/// assert_eq!(product.to_string(), "vec3<f32>");
/// # Ok::<(), wgsl_types_proved::Error>(())
/// ```
pub fn type_binary_op(operator: BinaryOperator, lhs: &Type, rhs: &Type) -> Result<Type, Error> {
    settled(proved::type_binary_op(Global, operator, lhs, rhs))
}

/// The candidate chosen for two operands, or [`Error::Binary`] with the operator and both operands.
///
/// ```
/// use wgsl_types_proved::{builtin::binary_candidate, syntax::BinaryOperator::ShiftLeft, Type};
///
/// let chosen = binary_candidate(ShiftLeft, &Type::I32, &Type::AbstractInt)?;
/// assert_eq!((chosen.lhs, chosen.rhs, chosen.result), (Type::I32, Type::U32, Type::I32));
/// # Ok::<(), wgsl_types_proved::Error>(())
/// ```
pub fn binary_candidate(
    operator: BinaryOperator,
    lhs: &Type,
    rhs: &Type,
) -> Result<Candidate, Error> {
    settled(proved::binary_candidate(Global, operator, lhs, rhs))
}

/// Whether the name is a constructor's: `array`, a concrete scalar, or a vector or a matrix without its component type.
///
/// ```
/// use wgsl_types_proved::builtin::is_ctor;
///
/// assert!(is_ctor("mat2x3") && is_ctor("f16") && !is_ctor("abs"));
/// ```
pub fn is_ctor(name: &str) -> bool {
    constructor::is_ctor(name)
}

/// The type that a constructor returns for its arguments (WGSL, "Value Constructor Built-in Functions"), or why it refuses
/// them. [`Error::Signature`] refuses a name that is no constructor's.
///
/// ```
/// use wgsl_types_proved::{builtin::type_ctor, tplt::TpltParam, Type};
///
/// let f16 = [TpltParam::Type(Type::F16)];
/// assert_eq!(type_ctor("vec3", Some(&f16), &[Type::AbstractInt])?, Type::vector(3, Type::F16));
/// assert_eq!(type_ctor("array", None, &[Type::U32, Type::AbstractInt])?, Type::array(Some(2), Type::U32));
/// # Ok::<(), wgsl_types_proved::Error>(())
/// ```
pub fn type_ctor(name: &str, tplt: Option<&[TpltParam]>, args: &[Type]) -> Result<Type, Error> {
    settled(constructor::type_ctor(Global, name, tplt, args))
}

/// Checks the arguments of a struct's constructor: none, or one per member, which converts to its type.
///
/// Else [`Error::ParamCount`] has the struct's name, the number of members and the number of arguments;
/// [`Error::ParamType`] has the type of the first member to which its argument doesn't convert, and that argument.
///
/// ```
/// use wgsl_types_proved::{builtin::typecheck_struct_ctor, ty::StructType, Error, Type};
///
/// let light = StructType::new("Light", [("color", Type::vector(3, Type::F32)), ("power", Type::F32)]);
/// let color = Type::vector(3, Type::AbstractFloat);
/// assert_eq!(typecheck_struct_ctor(&light, &[color.clone(), Type::AbstractInt]), Ok(()));
/// let refused = typecheck_struct_ctor(&light, &[color, Type::I32]);
/// assert_eq!(refused, Err(Error::ParamType(Type::F32, Type::I32)));
/// ```
pub fn typecheck_struct_ctor(of: &StructType, args: &[Type]) -> Result<(), Error> {
    settled(constructor::typecheck_struct_ctor(Global, of, args))
}

/// The type of a call of a built-in function, by its name, its template if it has one, and the types of its arguments;
/// None if it returns no value. [`Error::Signature`] with all three refuses a call that no overload takes.
///
/// ```
/// use wgsl_types_proved::{builtin::type_builtin_fn, Type};
///
/// let clamped = type_builtin_fn("clamp", None, &[Type::AbstractInt, Type::F32, Type::AbstractFloat])?;
/// assert_eq!(clamped, Some(Type::F32));
/// assert_eq!(type_builtin_fn("storageBarrier", None, &[])?, None);
/// # Ok::<(), wgsl_types_proved::Error>(())
/// ```
pub fn type_builtin_fn(
    name: &str,
    tplt: Option<&[TpltParam]>,
    args: &[Type],
) -> Result<Option<Type>, Error> {
    settled(call::type_builtin_fn(Global, name, tplt, args))
}
