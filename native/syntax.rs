//! The enumerations of WGSL, with their names. `Display` writes a value's name, and `FromStr` reads exactly that.

pub use crate::proved::wgsl_syntax::address::{AccessMode, AddressSpace};
pub use crate::proved::wgsl_syntax::attribute::{
    AccelerationStructureFlags, ConservativeDepth, DiagnosticSeverity, InterpolationSampling,
    InterpolationType,
};
pub use crate::proved::wgsl_syntax::builtin_value::BuiltinValue;
pub use crate::proved::wgsl_syntax::enumerant::Enumerant;
pub use crate::proved::wgsl_syntax::operator::{AssignmentOperator, BinaryOperator, UnaryOperator};
pub use crate::proved::wgsl_syntax::rules::RuleSet;
pub use crate::proved::wgsl_syntax::scalar::Scalar;
pub use crate::proved::wgsl_syntax::texel::TexelFormat;
pub use crate::proved::wgsl_syntax::texture::SampledType;
use alloc::string::ToString;
use core::{fmt, str::FromStr};

impl AssignmentOperator {
    /// All assignment operators, in the order of WGSL's text.
    pub const ALL: [AssignmentOperator; 11] = [
        AssignmentOperator::Equal,
        AssignmentOperator::PlusEqual,
        AssignmentOperator::MinusEqual,
        AssignmentOperator::TimesEqual,
        AssignmentOperator::DivisionEqual,
        AssignmentOperator::ModuloEqual,
        AssignmentOperator::AndEqual,
        AssignmentOperator::OrEqual,
        AssignmentOperator::XorEqual,
        AssignmentOperator::ShiftRightAssign,
        AssignmentOperator::ShiftLeftAssign,
    ];

    /// The operator of a compound assignment, and None for `=`.
    ///
    /// ```
    /// use wgsl_types_proved::syntax::{AssignmentOperator, BinaryOperator};
    ///
    /// let operator: AssignmentOperator = "<<=".parse()?;
    /// assert_eq!(operator.binary_operator(), Some(BinaryOperator::ShiftLeft));
    /// # Ok::<(), ()>(())
    /// ```
    #[cfg(feature = "standard")]
    pub fn binary_operator(self) -> Option<BinaryOperator> {
        crate::proved::wgsl_standard::forms::assign::binary_operator(self)
    }
}

impl FromStr for AssignmentOperator {
    type Err = ();

    fn from_str(text: &str) -> Result<AssignmentOperator, ()> {
        AssignmentOperator::ALL.into_iter().find(|known| known.to_string() == text).ok_or(())
    }
}

impl fmt::Display for Enumerant {
    fn fmt(&self, f: &mut fmt::Formatter<'_>) -> fmt::Result {
        match self {
            Enumerant::AccessMode(access) => access.fmt(f),
            Enumerant::AddressSpace(space) => space.fmt(f),
            Enumerant::TexelFormat(format) => format.fmt(f),
            Enumerant::AccelerationStructureFlags(flag) => flag.fmt(f),
        }
    }
}
