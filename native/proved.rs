//! The proved sources without their contracts: a module for each crate, as the build script in `erase/` writes them.
#![allow(dead_code, unused_imports, unused_variables, unreachable_code, clippy::all)]

include!(concat!(env!("OUT_DIR"), "/proved.rs"));
