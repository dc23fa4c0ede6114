//! Types, and values that have a type.

#[cfg(feature = "text")]
mod spelling;

use crate::error::Error;
use crate::proved::wgsl_core::conversion::typed::Ty as _;
pub use crate::proved::wgsl_core::ty::{StructMemberType, StructType, Type};
pub use crate::proved::wgsl_syntax::texture::{SamplerType, TextureDimensions, TextureType};
use crate::shim::{always, settled, std::alloc::Global};
use crate::syntax::SampledType;
use alloc::{boxed::Box, string::String, vec};
#[cfg(feature = "text")]
pub use spelling::SpellingError;

/// The depth up to which calls work on a stack of 512 KiB. A scalar, a texture or a sampler has depth 1, and each
/// array, vector, struct and so on around it adds 1. Deeper types need a larger stack.
pub const MAX_DEPTH: usize = 255;

/// A value that has a type.
pub trait Ty {
    /// The type of the value.
    fn ty(&self) -> Type;

    /// The type inside the type of the value, or that type itself if nothing is inside.
    fn inner_ty(&self) -> Type {
        self.ty()
    }
}

/// A type is its own type. The inner type is the one inside an array, a vector, a matrix, an atomic, a pointer, a reference
/// or a binding array.
impl Ty for Type {
    fn ty(&self) -> Type {
        self.clone()
    }

    fn inner_ty(&self) -> Type {
        always(self.rattle_inner_ty(Global))
    }
}

impl Type {
    /// A vector with that many components (WGSL, "Vector Types").
    pub fn vector(components: u8, of: Type) -> Type {
        always(Type::rattle_vector(Global, components, of))
    }

    /// A matrix with that many columns and rows (WGSL, "Matrix Types").
    pub fn matrix(columns: u8, rows: u8, of: Type) -> Type {
        always(Type::rattle_matrix(Global, columns, rows, of))
    }

    /// An array (WGSL, "Array Types"); without a count it is runtime-sized.
    pub fn array(count: Option<usize>, of: Type) -> Type {
        always(Type::rattle_array(Global, count, of))
    }

    /// The concrete type for the type (WGSL, "Abstract Numeric Types").
    pub fn concretize(&self) -> Type {
        always(Type::rattle_concretize(self, Global))
    }

    /// How many levels deep the type is: 1 for a scalar, 2 for a vector of scalars. It takes no stack for them.
    pub fn depth(&self) -> usize {
        self.checked_depth(usize::MAX).unwrap_or(usize::MAX)
    }

    /// How many levels deep the type is, or None if it is deeper than `limit`. It stops there.
    ///
    /// ```
    /// use wgsl_types_proved::{ty::MAX_DEPTH, Type};
    ///
    /// let ty = Type::array(None, Type::vector(3, Type::F32));
    /// assert_eq!(ty.checked_depth(MAX_DEPTH), Some(3));
    /// assert_eq!(ty.checked_depth(2), None);
    /// ```
    pub fn checked_depth(&self, limit: usize) -> Option<usize> {
        let (mut deepest, mut rest) = (0, vec![(self, 1)]);
        while let Some((ty, level)) = rest.pop() {
            if level > limit {
                return None;
            }
            deepest = deepest.max(level);
            match ty {
                Type::Struct(of) => {
                    rest.extend(of.members.iter().map(|member| (&member.ty, level + 1)))
                }
                _ if core::ptr::eq(ty.inner(), ty) => {}
                _ => rest.push((ty.inner(), level + 1)),
            }
        }
        Some(deepest)
    }
}

impl StructType {
    /// A struct (WGSL, "Structure Types") from the names and types of its members, which have no attributes.
    pub fn new<N: Into<String>>(
        name: impl Into<String>,
        members: impl IntoIterator<Item = (N, Type)>,
    ) -> StructType {
        let members = members.into_iter().map(|(name, ty)| StructMemberType::new(name.into(), ty));
        StructType { name: name.into(), members: members.collect() }
    }
}

impl From<StructType> for Type {
    fn from(of: StructType) -> Type {
        Type::Struct(Box::new(of))
    }
}

/// `i32`, `u32` or `f32`; [`Error::SampledType`] for any other type.
impl TryFrom<&Type> for SampledType {
    type Error = Error;

    fn try_from(ty: &Type) -> Result<SampledType, Error> {
        settled(crate::proved::wgsl_core::ty::try_from_type(Global, ty))
    }
}
