//! Conversion of types, and of values that have a type (WGSL, "Conversion Rank").
//!
//! ```
//! use wgsl_types_proved::Type;
//!
//! assert!(Type::AbstractInt.is_convertible_to(&Type::F32));
//! assert!(!Type::F32.is_convertible_to(&Type::AbstractFloat));
//! ```

#[doc(hidden)]
pub use crate::proved::wgsl_core::conversion::rank_steps;
use crate::proved::wgsl_core::conversion::{self as proved, lists, value::Convert as _};
use crate::shim::{always, std::alloc::Global};
use crate::ty::{Ty, Type};
use alloc::vec::Vec;

/// The rank of the conversion from `a` to `b`, or None if `a` doesn't convert to `b`.
///
/// ```
/// use wgsl_types_proved::{conv::conversion_rank, Type};
///
/// assert_eq!(conversion_rank(&Type::AbstractInt, &Type::F32), Some(6));
/// assert_eq!(conversion_rank(&Type::I32, &Type::U32), None);
/// ```
pub fn conversion_rank(a: &Type, b: &Type) -> Option<u32> {
    proved::conversion_rank(a, b)
}

/// The common type of two types (WGSL, "Overload Resolution"): the one to which the other converts; `b` if both do.
///
/// ```
/// use wgsl_types_proved::{conv::convert_ty, Type};
///
/// assert_eq!(convert_ty(&Type::F32, &Type::AbstractInt), Some(&Type::F32));
/// assert_eq!(convert_ty(&Type::F32, &Type::I32), None);
/// ```
pub fn convert_ty<'a>(a: &'a Type, b: &'a Type) -> Option<&'a Type> {
    proved::convert_ty(a, b)
}

/// The common type of the iterator's types, from left to right (WGSL, "Overload Resolution"). None if there is none, as
/// for no types.
///
/// ```
/// use wgsl_types_proved::{conv::convert_all_ty, Type};
///
/// assert_eq!(convert_all_ty(&[Type::AbstractInt, Type::F16, Type::AbstractFloat]), Some(&Type::F16));
/// ```
pub fn convert_all_ty<'a>(types: impl IntoIterator<Item = &'a Type>) -> Option<&'a Type> {
    lists::convert_all_ty(types)
}

/// A value that can be converted to a type (WGSL, "Conversion Rank").
pub trait Convert: Sized + Clone + Ty {
    /// The value converted to a type; None if it doesn't convert.
    fn convert_to(&self, ty: &Type) -> Option<Self>;

    /// The value with the elements of an array, a vector or a matrix converted to a type; None if they don't convert. Any
    /// other value is converted as a whole.
    fn convert_inner_to(&self, ty: &Type) -> Option<Self> {
        self.convert_to(ty)
    }

    /// The value converted to the concrete type for its type; None if it doesn't convert.
    fn concretize(&self) -> Option<Self> {
        self.convert_to(&self.ty().concretize())
    }
}

impl Convert for Type {
    fn convert_to(&self, ty: &Type) -> Option<Type> {
        always(self.rattle_convert_to(Global, ty))
    }

    fn convert_inner_to(&self, ty: &Type) -> Option<Type> {
        always(self.rattle_convert_inner_to(Global, ty))
    }

    fn concretize(&self) -> Option<Type> {
        Some(Type::concretize(self))
    }
}

/// Both values converted to their common type; None if there is none, or one of them doesn't convert.
///
/// ```
/// use wgsl_types_proved::{conv::convert, Type};
///
/// assert_eq!(convert(&Type::AbstractInt, &Type::U32), Some((Type::U32, Type::U32)));
/// ```
pub fn convert<T: Convert>(a: &T, b: &T) -> Option<(T, T)> {
    let (a_type, b_type) = (a.ty(), b.ty());
    let common = convert_ty(&a_type, &b_type)?;
    Some((a.convert_to(common)?, b.convert_to(common)?))
}

/// Both values converted by `convert_inner_to` to the common type of their inner types; None if there is none, or one of
/// them doesn't convert.
///
/// ```
/// use wgsl_types_proved::{conv::convert_inner, Type};
///
/// let vector = |scalar| Type::vector(2, scalar);
/// let both = convert_inner(&vector(Type::AbstractInt), &Type::F32);
/// assert_eq!(both, Some((vector(Type::F32), Type::F32)));
/// ```
pub fn convert_inner<T: Convert, U: Convert>(a: &T, b: &U) -> Option<(T, U)> {
    let (a_type, b_type) = (a.inner_ty(), b.inner_ty());
    let common = convert_ty(&a_type, &b_type)?;
    Some((a.convert_inner_to(common)?, b.convert_inner_to(common)?))
}

/// All values converted to their common type, in order; None if there is none, as for an empty list, or if one doesn't
/// convert.
///
/// ```
/// use wgsl_types_proved::{conv::convert_all, Type};
///
/// assert_eq!(convert_all(&[Type::AbstractInt, Type::F32]), Some(vec![Type::F32, Type::F32]));
/// ```
pub fn convert_all<T: Convert>(values: &[T]) -> Option<Vec<T>> {
    let types: Vec<Type> = values.iter().map(Ty::ty).collect();
    convert_all_to(values, convert_all_ty(&types)?)
}

/// All values converted to a type, in order; None if one doesn't convert.
///
/// ```
/// use wgsl_types_proved::{conv::convert_all_to, Type};
///
/// assert_eq!(convert_all_to(&[Type::AbstractInt], &Type::I32), Some(vec![Type::I32]));
/// assert_eq!(convert_all_to(&[Type::F32], &Type::I32), None);
/// ```
pub fn convert_all_to<T: Convert>(values: &[T], ty: &Type) -> Option<Vec<T>> {
    values.iter().map(|value| value.convert_to(ty)).collect()
}

/// All values converted by `convert_inner_to` to a type, in order; None if one doesn't convert.
///
/// ```
/// use wgsl_types_proved::{conv::convert_all_inner_to, Type};
///
/// let vectors = [Type::vector(2, Type::AbstractInt)];
/// assert_eq!(convert_all_inner_to(&vectors, &Type::F32), Some(vec![Type::vector(2, Type::F32)]));
/// ```
pub fn convert_all_inner_to<T: Convert>(values: &[T], ty: &Type) -> Option<Vec<T>> {
    values.iter().map(|value| value.convert_inner_to(ty)).collect()
}
