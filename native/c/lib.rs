//! The library for C: the functions of `wgsl.h`, over the proved calls. A slice is a pointer and a length.

use std::ffi::c_char;
use std::slice::{from_raw_parts, from_raw_parts_mut};
use wgsl_types_proved::library;

macro_rules! export {
    ($($name:ident($($more:ident: $type:ty)?);)*) => {
        $(
            /// As `wgsl.h` says.
            ///
            /// # Safety
            ///
            /// As `wgsl.h` says: the pointers are those of as many bytes as the lengths say, and `text_len` is that of a number.
            #[no_mangle]
            pub unsafe extern "C" fn $name(
                request: *const u8,
                request_len: usize,
                buffer: *mut u8,
                buffer_len: usize,
                text_len: *mut usize,
                $($more: $type,)?
            ) -> u8 {
                let (request, buffer) = (from_raw_parts(request, request_len), from_raw_parts_mut(buffer, buffer_len));
                library::$name(library::Global, request, buffer, &mut *text_len $(, $more)?)
            }
        )*
    };
}

export! {
    wgsl_answer();
    wgsl_explain();
    wgsl_standard_answer();
    wgsl_standard_explain();
    wgsl_source_layout();
    wgsl_module_check();
    wgsl_source_code(language: u8);
}

const VERSION: &str = concat!(env!("CARGO_PKG_VERSION"), "\0");

/// The version.
#[no_mangle]
pub extern "C" fn wgsl_version() -> *const c_char {
    VERSION.as_ptr().cast()
}
