#![cfg_attr(feature = "text", doc = include_str!("README.md"))]
#![cfg_attr(not(feature = "text"), doc = env!("CARGO_PKG_DESCRIPTION"))]
#![no_std]
#![forbid(unsafe_code)]
#![warn(missing_docs)]

extern crate alloc;
#[cfg(feature = "std")]
extern crate std as rust_std;

pub mod builtin;
pub mod conv;
pub mod error;
pub mod inst;
#[cfg(feature = "text")]
#[doc(hidden)]
pub mod library;
pub mod mem;
#[cfg(feature = "text")]
pub mod module;
#[cfg(feature = "text")]
pub mod predeclared;
#[cfg(feature = "std")]
#[doc(hidden)]
pub mod programs;
mod proved;
#[cfg(feature = "text")]
pub mod reader;
#[cfg(feature = "text")]
pub mod requests;
#[cfg_attr(not(feature = "std"), allow(unused))] // the programs use all of it
mod shim;
#[cfg(feature = "text")]
pub mod source;
#[cfg(feature = "standard")]
pub mod standard;
pub mod syntax;
pub mod tplt;
pub mod ty;

pub use error::Error;
pub use inst::Instance;
pub use proved::wgsl_core::signature::{CallSignature, ShaderStage};
pub use ty::Type;
