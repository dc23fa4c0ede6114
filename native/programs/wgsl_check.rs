//! The program `wgsl_check`.

use std::process::ExitCode;

fn main() -> ExitCode {
    wgsl_types_proved::programs::check()
}
