//! The programs: the `main` of each proved program, and the code that starts it.

pub use crate::proved::wgsl_check::{status, RunError};
use crate::proved::{wgsl as commands, wgsl_check};
use crate::shim::host::HostRuntime;
use crate::shim::std::{alloc::Global, process::ExitCode};
use alloc::vec::Vec;
use rust_std::ffi::{OsStr, OsString};
use rust_std::io::{Read, Write};

/// `wgsl`: layouts of files, and requests on standard input, by WGSL's own rules. It reads its arguments itself.
pub fn wgsl() -> ExitCode {
    commands::main(HostRuntime)
}

/// `wgsl_check`: requests on standard input, answered by the rules of wgsl-types.
pub fn check() -> ExitCode {
    let words: Vec<OsString> = rust_std::env::args_os().skip(1).collect();
    let words: Vec<Option<&str>> =
        words.iter().map(OsString::as_os_str).map(OsStr::to_str).collect();
    match words.as_slice() {
        [] | [Some("--strict")] => wgsl_check::main(HostRuntime),
        [Some("--version")] => tell(concat!("wgsl_check ", env!("CARGO_PKG_VERSION"), "\n")),
        [Some("--help" | "-h")] => tell(include_str!("../bindings/help.txt")),
        _ => {
            rust_std::eprintln!(
                "wgsl_check: it takes no argument but --strict, and reads commands from standard input: see wgsl_check --help"
            );
            ExitCode::from(64)
        }
    }
}

/// Answers each line of the input as `wgsl_check` does, without notes, and says whether every one was readable.
pub fn run(input: &mut impl Read, output: &mut impl Write) -> Result<bool, RunError> {
    wgsl_check::run(Global, input, output)
}

fn tell(text: &str) -> ExitCode {
    ExitCode::from(u8::from(HostRuntime.stdout().write_all(text.as_bytes()).is_err()))
}
