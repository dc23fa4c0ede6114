//! The modules of Rattle's std that the proved sources name.

pub use core::{cmp, mem, str};

/// The allocator.
pub mod alloc {
    use core::fmt;

    /// The allocator of Rust's collections, which they use without an argument.
    #[derive(Clone, Copy, Debug, PartialEq, Eq, Hash)]
    pub struct Global;

    /// Out of memory, which no call reports here.
    #[derive(Clone, Copy, Debug, PartialEq, Eq, Hash)]
    pub enum AllocError {}

    /// Out of memory, with the value that could not be stored.
    pub struct AllocFailed<T> {
        error: AllocError,
        _value: T,
    }

    impl<T> From<AllocFailed<T>> for AllocError {
        fn from(failed: AllocFailed<T>) -> AllocError {
            failed.error
        }
    }

    impl fmt::Display for AllocError {
        fn fmt(&self, _: &mut fmt::Formatter<'_>) -> fmt::Result {
            match *self {}
        }
    }
}

pub mod collections {
    pub use alloc::collections::{BTreeMap, BTreeSet};
}

pub mod fmt {
    pub use crate::shim::collections::RattleWrite as Write;
    pub use core::fmt::{Debug, Display, Formatter, Result};
}

#[cfg(feature = "text")]
pub mod num {
    pub fn saturating_f32_to_i64(float: f32) -> i64 {
        float as i64
    }

    pub fn saturating_f64_to_i64(float: f64) -> i64 {
        float as i64
    }
}

#[cfg(feature = "text")]
pub mod marker {
    /// A type of which contracts see one value, as a list.
    pub trait Model {}
}

pub mod simd {
    pub mod prelude {
        pub use crate::shim::simd::u8x16;
    }
}

#[cfg(feature = "std")]
pub use crate::shim::host::{env, fs, io, process};
