//! Constructors of any type.

use super::{construct_array_of, construct_struct, type_ctor, Misfit, NoOverload, Operand};
use crate::ty::Type;
use alloc::format;
use alloc::string::{String, ToString};
use core::fmt;

/// Why the constructor of a type doesn't take values. It displays as what it has.
#[derive(Clone, Debug, PartialEq, Eq, Hash)]
#[non_exhaustive]
pub enum NotConstructed {
    /// Of a scalar, a vector or a matrix.
    NoOverload(NoOverload),
    /// Of any other type.
    Refused(Misfit),
}

impl From<NoOverload> for NotConstructed {
    fn from(refused: NoOverload) -> NotConstructed {
        NotConstructed::NoOverload(refused)
    }
}

impl From<Misfit> for NotConstructed {
    fn from(refused: Misfit) -> NotConstructed {
        NotConstructed::Refused(refused)
    }
}

impl fmt::Display for NotConstructed {
    fn fmt(&self, f: &mut fmt::Formatter<'_>) -> fmt::Result {
        match self {
            NotConstructed::NoOverload(refused) => refused.fmt(f),
            NotConstructed::Refused(refused) => refused.fmt(f),
        }
    }
}

impl core::error::Error for NotConstructed {}

/// What the constructor of a type makes of values, whatever the type: that of [`type_ctor`], [`construct_array_of`] or
/// [`construct_struct`]. [`NotConstructible`](super::Refusal::NotConstructible) of a type that has no constructor. `array(x, y)`, which names no
/// type of elements, is [`construct_array`](super::construct_array).
///
/// ```
/// use wgsl_types_proved::{standard::{construct, Operand}, Type};
///
/// let ones = vec![Operand::new(Type::AbstractInt); 3];
/// for text in ["vec3f", "array<u32, 3>"] {
///     let ty: Type = text.parse()?;
///     assert_eq!(construct(&ty, &ones), Ok(Operand::constant(ty)));
/// }
/// let refused = construct(&Type::F16, &ones).unwrap_err();
/// assert_eq!(refused.to_string(), "no overload of `f16` takes (AbstractInt, AbstractInt, AbstractInt)");
/// # Ok::<(), wgsl_types_proved::ty::SpellingError>(())
/// ```
pub fn construct(ty: &Type, values: &[Operand]) -> Result<Operand, NotConstructed> {
    Ok(match (ty, constructor_of(ty)) {
        (Type::Array(of, count), _) => construct_array_of(of, *count, values)?,
        (_, Some((name, of))) => type_ctor(&name, of, values)?,
        _ => construct_struct(ty, values)?,
    })
}

/// The constructor of a concrete scalar, a vector or a matrix: its name, and the type in its template.
pub(crate) fn constructor_of(ty: &Type) -> Option<(String, Option<&Type>)> {
    match ty {
        Type::Vec(n, of) => Some((format!("vec{n}"), Some(of))),
        Type::Mat(columns, rows, of) => Some((format!("mat{columns}x{rows}"), Some(of))),
        _ => (ty.is_scalar() && ty.is_concrete()).then(|| (ty.to_string(), None)),
    }
}
