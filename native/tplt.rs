//! Templates and their parameters (WGSL, "Template Lists").

use crate::error::Error;
pub use crate::proved::wgsl_calls::template::{
    ArrayTemplate, AtomicTemplate, BindingArrayTemplate, BitcastTemplate, MatTemplate, PtrTemplate,
    TextureTemplate, VecTemplate,
};
pub use crate::proved::wgsl_core::signature::TpltParam;
use crate::shim::{always, settled, std::alloc::Global};
use crate::ty::Type;

/// Templates with their methods: `parse`, and those whose result is a type, with their names here and in the proved sources.
macro_rules! templates {
    ($($template:ident {
        $(#[$reads:meta])* parse($($name:ident: $text:ty)?);
        $($(#[$is:meta])* $method:ident $proved:ident($($n:ident),*);)*
    })*) => {$(
        impl $template {
            $(#[$reads])*
            pub fn parse($($name: $text,)? tplt: &[TpltParam]) -> Result<$template, Error> {
                settled($template::rattle_parse(Global, $($name,)? tplt))
            }

            $(
                $(#[$is])*
                pub fn $method(&self $(, $n: u8)*) -> Type {
                    always(self.$proved(Global $(, $n)*))
                }
            )*
        }
    )*};
}

templates! {
    ArrayTemplate {
        /// Reads a type, or a type and a literal; else [`Error::TemplateArgs`]. [`Error::Builtin`] if the literal isn't an
        /// integer above 0.
        ///
        /// ```
        /// use wgsl_types_proved::{inst::LiteralInstance, tplt::{ArrayTemplate, TpltParam}, Type};
        ///
        /// let four = TpltParam::Instance(LiteralInstance::U32(4).into());
        /// let template = ArrayTemplate::parse(&[TpltParam::Type(Type::F32), four])?;
        /// assert_eq!((template.inner_ty(), template.n()), (Type::F32, Some(4)));
        /// assert_eq!(template.ty().to_string(), "array<f32, 4>");
        /// # Ok::<(), wgsl_types_proved::Error>(())
        /// ```
        parse();
        /// The array.
        ty rattle_ty();
        /// The element.
        inner_ty rattle_inner_ty();
    }

    VecTemplate {
        /// Reads one type, else [`Error::TemplateArgs`]. [`Error::Builtin`] if it isn't a concrete scalar.
        ///
        /// ```
        /// use wgsl_types_proved::{tplt::{TpltParam, VecTemplate}, Type};
        ///
        /// let template = VecTemplate::parse(&[TpltParam::Type(Type::I32)])?;
        /// assert_eq!(template.ty(3).to_string(), "vec3<i32>");
        /// assert!(VecTemplate::parse(&[TpltParam::Type(Type::AbstractInt)]).is_err());
        /// # Ok::<(), wgsl_types_proved::Error>(())
        /// ```
        parse();
        /// The vector with `n` components.
        ty rattle_ty(n);
    }

    MatTemplate {
        /// Reads one type, else [`Error::TemplateArgs`]. [`Error::Builtin`] if it isn't a float.
        ///
        /// ```
        /// use wgsl_types_proved::{tplt::{MatTemplate, TpltParam}, Type};
        ///
        /// let template = MatTemplate::parse(&[TpltParam::Type(Type::F16)])?;
        /// assert_eq!(template.ty(2, 3).to_string(), "mat2x3<f16>");
        /// assert!(MatTemplate::parse(&[TpltParam::Type(Type::I32)]).is_err());
        /// # Ok::<(), wgsl_types_proved::Error>(())
        /// ```
        parse();
        /// The matrix with `c` columns and `r` rows.
        ty rattle_ty(c, r);
    }

    BitcastTemplate {
        /// Reads one type, else [`Error::TemplateArgs`]. [`Error::Builtin`] if it is neither a number nor a vector of numbers.
        ///
        /// ```
        /// use wgsl_types_proved::{tplt::{BitcastTemplate, TpltParam}, Type};
        ///
        /// let template = BitcastTemplate::parse(&[TpltParam::Type(Type::vector(2, Type::U32))])?;
        /// assert_eq!((template.ty().to_string(), template.inner_ty()), ("vec2<u32>".to_string(), Type::U32));
        /// assert!(BitcastTemplate::parse(&[TpltParam::Type(Type::Bool)]).is_err());
        /// # Ok::<(), wgsl_types_proved::Error>(())
        /// ```
        parse();
        /// The type of the vector's components, or the number itself.
        inner_ty rattle_inner_ty();
    }

    BindingArrayTemplate {
        /// Reads a type, or a type and a literal; else [`Error::TemplateArgs`]. [`Error::Builtin`] if the literal isn't an
        /// integer above 0.
        ///
        /// ```
        /// use wgsl_types_proved::{tplt::{BindingArrayTemplate, TpltParam}, Type};
        ///
        /// let template = BindingArrayTemplate::parse(&[TpltParam::Type(Type::F32)])?;
        /// assert_eq!((template.ty().to_string(), template.n()), ("binding_array<f32>".to_string(), None));
        /// # Ok::<(), wgsl_types_proved::Error>(())
        /// ```
        parse();
        /// The binding array.
        ty rattle_ty();
        /// The element.
        inner_ty rattle_inner_ty();
    }

    AtomicTemplate {
        /// Reads one type, else [`Error::TemplateArgs`]. [`Error::Builtin`] if it is neither `f32` nor a concrete integer.
        parse();
        /// The atomic.
        ty rattle_ty();
        /// The type inside.
        inner_ty rattle_inner_ty();
    }

    PtrTemplate {
        /// Reads an address space, a type and at most one more parameter, else [`Error::TemplateArgs`]; a third parameter that
        /// isn't an access mode is ignored. [`Error::Builtin`] if the type isn't storable, or the uniform space has an access
        /// mode other than `read`; [`Error::PtrHandle`] for the handle space; [`Error::Todo`] for push constants.
        parse();
        /// The pointer.
        ty rattle_ty();
    }

    TextureTemplate {
        /// Reads the parameters of the texture with this name. Sampled and multisampled textures take `i32`, `u32` or `f32`;
        /// [`Error::SampledType`] for another type, [`Error::Builtin`] for anything else. Storage textures take a texel format
        /// and an access mode; [`Error::Builtin`] for anything else, and for any other name.
        parse(name: &str);
    }
}
