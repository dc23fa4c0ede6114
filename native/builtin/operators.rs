//! The operators as methods.

use crate::error::Error;
use crate::shim::{settled, std::alloc::Global};
use crate::ty::Type;

/// Methods, each with the expression of which it tells the type, its name here and in the proved sources, and an example.
macro_rules! operators {
    ($($text:literal $name:ident $proved:ident($($rhs:ident)?): $($example:literal)*;)*) => {
        impl Type {$(
            #[doc = concat!("The type of `", $text, "`.")]
            ///
            /// ```
            /// # use wgsl_types_proved::syntax::{AccessMode::ReadWrite, AddressSpace::Private};
            /// # use wgsl_types_proved::Type;
            $(#[doc = $example])*
            /// ```
            pub fn $name(&self $(, $rhs: &Type)?) -> Result<Type, Error> {
                settled(self.$proved(Global $(, $rhs)?))
            }
        )*}
    };
}

operators! {
    "!self" op_not rattle_op_not():
        "assert_eq!(Type::Bool.op_not(), Ok(Type::Bool));";
    "-self" op_neg rattle_op_neg():
        "assert_eq!(Type::F32.op_neg(), Ok(Type::F32));";
    "~self" op_bitnot rattle_op_bitnot():
        "assert_eq!(Type::U32.op_bitnot(), Ok(Type::U32));";
    "&self" op_ref rattle_op_ref():
        "let variable = Type::Ref(Private, Box::new(Type::I32), ReadWrite);"
        "assert_eq!(variable.op_ref(), Ok(Type::Ptr(Private, Box::new(Type::I32), ReadWrite)));";
    "*self" op_deref rattle_op_deref():
        "let pointer = Type::Ptr(Private, Box::new(Type::I32), ReadWrite);"
        "assert_eq!(pointer.op_deref(), Ok(Type::Ref(Private, Box::new(Type::I32), ReadWrite)));";
    "self || rhs" op_or rattle_op_or(rhs):
        "assert_eq!(Type::Bool.op_or(&Type::Bool), Ok(Type::Bool));";
    "self && rhs" op_and rattle_op_and(rhs):
        "assert_eq!(Type::Bool.op_and(&Type::Bool), Ok(Type::Bool));";
    "self + rhs" op_add rattle_op_add(rhs):
        "assert_eq!(Type::AbstractInt.op_add(&Type::F32), Ok(Type::F32));";
    "self - rhs" op_sub rattle_op_sub(rhs):
        "assert_eq!(Type::I32.op_sub(&Type::AbstractInt), Ok(Type::I32));";
    "self * rhs" op_mul rattle_op_mul(rhs):
        "let vector = Type::vector(3, Type::F32);"
        "assert_eq!(Type::F32.op_mul(&vector), Ok(vector));";
    "self / rhs" op_div rattle_op_div(rhs):
        "assert_eq!(Type::F16.op_div(&Type::AbstractFloat), Ok(Type::F16));";
    "self % rhs" op_rem rattle_op_rem(rhs):
        "assert_eq!(Type::U32.op_rem(&Type::U32), Ok(Type::U32));";
    "self == rhs" op_eq rattle_op_eq(rhs):
        "assert_eq!(Type::F32.op_eq(&Type::F32), Ok(Type::Bool));";
    "self != rhs" op_ne rattle_op_ne(rhs):
        "let vector = Type::vector(2, Type::I32);"
        "assert_eq!(vector.op_ne(&vector), Ok(Type::vector(2, Type::Bool)));";
    "self < rhs" op_lt rattle_op_lt(rhs):
        "assert_eq!(Type::U32.op_lt(&Type::AbstractInt), Ok(Type::Bool));";
    "self <= rhs" op_le rattle_op_le(rhs):
        "assert_eq!(Type::F32.op_le(&Type::AbstractInt), Ok(Type::Bool));";
    "self > rhs" op_gt rattle_op_gt(rhs):
        "assert_eq!(Type::I32.op_gt(&Type::I32), Ok(Type::Bool));";
    "self >= rhs" op_ge rattle_op_ge(rhs):
        "assert_eq!(Type::F16.op_ge(&Type::F16), Ok(Type::Bool));";
    "self | rhs" op_bitor rattle_op_bitor(rhs):
        "assert_eq!(Type::U32.op_bitor(&Type::U32), Ok(Type::U32));";
    "self & rhs" op_bitand rattle_op_bitand(rhs):
        "assert_eq!(Type::I32.op_bitand(&Type::AbstractInt), Ok(Type::I32));";
    "self ^ rhs" op_bitxor rattle_op_bitxor(rhs):
        "assert_eq!(Type::AbstractInt.op_bitxor(&Type::U32), Ok(Type::U32));";
    "self << rhs" op_shl rattle_op_shl(rhs):
        "assert_eq!(Type::I32.op_shl(&Type::U32), Ok(Type::I32));";
    "self >> rhs" op_shr rattle_op_shr(rhs):
        "assert_eq!(Type::U32.op_shr(&Type::U32), Ok(Type::U32));";
}
