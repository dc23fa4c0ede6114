//! The program `wgsl`. Its command `serve` is here, all else is proved.
#![forbid(unsafe_code)]

mod serve;

use std::env::args_os;
use std::ffi::OsString;
use std::io::{stdout, Write};
use std::process::ExitCode;

/// What is said behind the help of the proved program.
const HELP: &str = "
Built by cargo, it has one command more:

  serve   answers an editor, as a language server
";

fn main() -> ExitCode {
    let words: Vec<OsString> = args_os().skip(1).collect();
    match words.split_first() {
        Some((command, words)) if command == "serve" => serve::run(words),
        Some((word, [])) if word == "--help" || word == "-h" => {
            let status = wgsl_types_proved::programs::wgsl();
            // If this can't be written, neither could the help, whose status says so.
            let _ = stdout().write_all(HELP.as_bytes());
            status
        }
        _ => wgsl_types_proved::programs::wgsl(),
    }
}
