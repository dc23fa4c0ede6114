//! Instances: literals, with their types and their texts. There are no other values here.
//!
//! ```
//! use wgsl_types_proved::{inst::{Instance, LiteralInstance}, Type};
//!
//! let three = Instance::from(LiteralInstance::AbstractInt(3));
//! assert!(three.is_convertible_to(&Type::F32) && !three.is_convertible_to(&Type::Bool));
//! ```

pub use crate::proved::wgsl_core::literal::{Instance, LiteralInstance};
use crate::ty::{Ty, Type};

impl Ty for Instance {
    fn ty(&self) -> Type {
        match self {
            Instance::Literal(literal) => literal.ty(),
        }
    }
}

/// The type of a literal is a scalar.
impl Ty for LiteralInstance {
    fn ty(&self) -> Type {
        self.scalar_type()
    }
}

impl From<LiteralInstance> for Instance {
    fn from(literal: LiteralInstance) -> Instance {
        Instance::Literal(literal)
    }
}
