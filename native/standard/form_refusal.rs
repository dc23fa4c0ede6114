//! Forms that are refused.

use crate::proved::wgsl_standard::forms::{form::UnbuiltType, refusal::Refusal as Proved};
use crate::shim::{always, std::alloc::Global};
use crate::syntax::{AccessMode, AddressSpace, BinaryOperator, UnaryOperator};
use crate::ty::Type;
use alloc::string::String;
use core::fmt;

/// Why a member, an index, a load, a declaration, an assignment or a list of values is refused. It displays as a message.
#[derive(Clone, Debug, PartialEq, Eq, Hash)]
#[non_exhaustive]
pub enum Refusal {
    /// A type, and the name of a component that it lacks.
    Component(Type, String),
    /// A type that can't be indexed.
    NotIndexable(Type),
    /// A type that should be `i32` or `u32`.
    NotInteger(Type),
    /// What should be a const-expression.
    NotConst,
    /// A read through a reference that can't be read.
    NotRead,
    /// A write through a reference that can't be written.
    NotWrite,
    /// A read and a write through a reference that doesn't allow both.
    NotReadWrite,
    /// A type that isn't constructible.
    NotConstructible(Type),
    /// A type that should be a scalar.
    NotScalar(Type),
    /// The type of what should be a reference.
    NotReference(Type),
    /// An address space, and a type that a variable there can't hold.
    NotInSpace(AddressSpace, Type),
    /// An address space whose variables have no initializer.
    Initialized(AddressSpace),
    /// An address space, and an access mode that its variables can't have.
    AccessMode(AddressSpace, AccessMode),
    /// The type of a condition, which should be `bool`.
    NotCondition(Type),
    /// The type that a function returns, and the type of the value.
    NotReturned(Type, Type),
    /// A type, and the type to which it doesn't convert.
    Conversion(Type, Type),
    /// The type written, and the type that the reference refers to.
    WriteRefType(Type, Type),
    /// An operator, and an operand that it doesn't take.
    Unary(UnaryOperator, Type),
    /// An operator, and two operands that it doesn't take.
    Binary(BinaryOperator, Type, Type),
    /// The name, the number of values that it takes, and the number given.
    ParamCount(String, usize, usize),
    /// The type expected, and the type of the value.
    ParamType(Type, Type),
    /// What is wrong with an array constructor, in words.
    Builtin(&'static str),
    /// A pointer into the handle space.
    PtrHandle,
    /// A pointer to a component of a vector.
    PtrVecComp,
}

pub(super) fn built(ty: UnbuiltType<'_>) -> Type {
    always(ty.rattle_build(Global))
}

impl From<Proved<'_>> for Refusal {
    #[cold]
    fn from(refusal: Proved<'_>) -> Refusal {
        match refusal {
            Proved::Component(t, name) => Refusal::Component(built(t), name.into()),
            Proved::NotIndexable(t) => Refusal::NotIndexable(built(t)),
            Proved::NotInteger(t) => Refusal::NotInteger(built(t)),
            Proved::NotConst => Refusal::NotConst,
            Proved::NotRead => Refusal::NotRead,
            Proved::NotWrite => Refusal::NotWrite,
            Proved::NotReadWrite => Refusal::NotReadWrite,
            Proved::NotConstructible(t) => Refusal::NotConstructible(built(t)),
            Proved::NotScalar(t) => Refusal::NotScalar(built(t)),
            Proved::NotReference(t) => Refusal::NotReference(built(t)),
            Proved::NotInSpace(space, t) => Refusal::NotInSpace(space, built(t)),
            Proved::Initialized(space) => Refusal::Initialized(space),
            Proved::AccessMode(space, access) => Refusal::AccessMode(space, access),
            Proved::NotCondition(t) => Refusal::NotCondition(built(t)),
            Proved::NotReturned(expected, t) => Refusal::NotReturned(built(expected), built(t)),
            Proved::Conversion(t, to) => Refusal::Conversion(built(t), built(to)),
            Proved::WriteRefType(t, to) => Refusal::WriteRefType(built(t), built(to)),
            Proved::Unary(operator, t) => Refusal::Unary(operator, built(t)),
            Proved::Binary(operator, a, b) => Refusal::Binary(operator, built(a), built(b)),
            Proved::ParamCount(name, takes, n) => Refusal::ParamCount(name.into(), takes, n),
            Proved::ParamType(expected, t) => Refusal::ParamType(built(expected), built(t)),
            Proved::Builtin(text) => Refusal::Builtin(text),
            Proved::PtrHandle => Refusal::PtrHandle,
            Proved::PtrVecComp => Refusal::PtrVecComp,
        }
    }
}

impl Refusal {
    fn proved(&self) -> Proved<'_> {
        let of = UnbuiltType::of_type;
        match self {
            Refusal::Component(t, name) => Proved::Component(of(t), name),
            Refusal::NotIndexable(t) => Proved::NotIndexable(of(t)),
            Refusal::NotInteger(t) => Proved::NotInteger(of(t)),
            Refusal::NotConst => Proved::NotConst,
            Refusal::NotRead => Proved::NotRead,
            Refusal::NotWrite => Proved::NotWrite,
            Refusal::NotReadWrite => Proved::NotReadWrite,
            Refusal::NotConstructible(t) => Proved::NotConstructible(of(t)),
            Refusal::NotScalar(t) => Proved::NotScalar(of(t)),
            Refusal::NotReference(t) => Proved::NotReference(of(t)),
            Refusal::NotInSpace(space, t) => Proved::NotInSpace(*space, of(t)),
            Refusal::Initialized(space) => Proved::Initialized(*space),
            Refusal::AccessMode(space, access) => Proved::AccessMode(*space, *access),
            Refusal::NotCondition(t) => Proved::NotCondition(of(t)),
            Refusal::NotReturned(expected, t) => Proved::NotReturned(of(expected), of(t)),
            Refusal::Conversion(t, to) => Proved::Conversion(of(t), of(to)),
            Refusal::WriteRefType(t, to) => Proved::WriteRefType(of(t), of(to)),
            Refusal::Unary(operator, t) => Proved::Unary(*operator, of(t)),
            Refusal::Binary(operator, a, b) => Proved::Binary(*operator, of(a), of(b)),
            Refusal::ParamCount(name, takes, n) => Proved::ParamCount(name, *takes, *n),
            Refusal::ParamType(expected, t) => Proved::ParamType(of(expected), of(t)),
            Refusal::Builtin(text) => Proved::Builtin(text),
            Refusal::PtrHandle => Proved::PtrHandle,
            Refusal::PtrVecComp => Proved::PtrVecComp,
        }
    }
}

impl fmt::Display for Refusal {
    fn fmt(&self, f: &mut fmt::Formatter<'_>) -> fmt::Result {
        self.proved().fmt(f)
    }
}

impl core::error::Error for Refusal {}
