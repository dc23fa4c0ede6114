//! The calls of the library for C, which `native/c` exports: each writes a text at the start of the buffer, sets its length,
//! and returns the status that `wgsl.h` names.

pub use crate::proved::wgsl_c::{
    wgsl_answer, wgsl_explain, wgsl_module_check, wgsl_source_code, wgsl_source_layout,
    wgsl_standard_answer, wgsl_standard_explain,
};
pub use crate::shim::std::alloc::Global;
