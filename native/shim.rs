//! What Rattle has and Rust hasn't: an allocator that is passed, and calls that fail when memory runs out.
//!
//! Rust's allocation ends the process instead, so `AllocError` has no values here: a `Result<T, AllocError>` is a `T`, a `?`
//! on it is no branch, and an arm for it is no code.

mod casts;
mod collections;
#[cfg(feature = "std")]
pub mod host;
mod simd;
pub mod std;

use self::std::alloc::AllocError;
use crate::proved::wgsl_core::error::Fail;

/// What each module of the proved sources imports: the names in Rattle's prelude, and the names of crates.
pub mod prelude {
    pub(crate) use super::casts::{RattleSigned, RattleUnsigned};
    pub(crate) use super::collections::{
        RattleBox, RattleExtend, RattleMap, RattleSet, RattleString, RattleVec, RattleWrite,
    };
    #[cfg(feature = "std")]
    pub(crate) use super::host::{eprintln, HostRuntime};
    #[allow(unused_imports)]
    pub(crate) use super::macros::{format, vec};
    pub(crate) use super::{std, Drop};
    pub(crate) use crate::proved::*;
    pub(crate) use alloc::boxed::Box;
    pub(crate) use alloc::string::String;
    pub(crate) use alloc::vec::Vec;
}

/// The value of a result that can't fail.
#[inline(always)]
pub fn always<T>(made: Result<T, AllocError>) -> T {
    match made {
        Ok(made) => made,
        Err(never) => match never {},
    }
}

/// The value, or the refusal.
#[inline(always)]
pub fn settled<T, E>(made: Result<T, Fail<E>>) -> Result<T, E> {
    match made {
        Ok(made) => Ok(made),
        Err(Fail::Error(error)) => Err(error),
        Err(Fail::Memory(never)) => match never {},
    }
}

/// Rattle's bound for values that may be dropped. In Rust all may be.
pub trait Drop {}

impl<T: ?Sized> Drop for T {}

mod macros {
    /// `vec![in alloc; ..]?`
    macro_rules! vec_in {
        (in $alloc:expr; $($items:tt)*) => {{
            let crate::shim::std::alloc::Global = $alloc;
            Ok::<_, crate::shim::std::alloc::AllocError>(alloc::vec![$($items)*])
        }};
    }

    /// `format!(in alloc; ..)?`
    macro_rules! format_in {
        (in $alloc:expr; $($format:tt)*) => {{
            let crate::shim::std::alloc::Global = $alloc;
            Ok::<_, crate::shim::std::alloc::AllocError>(alloc::format!($($format)*))
        }};
    }

    #[allow(unused_imports)]
    pub(crate) use {format_in as format, vec_in as vec};
}
