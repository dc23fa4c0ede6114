//! A build script: the structs of a shader as Rust, for `include!(concat!(env!("OUT_DIR"), "/shader.rs"))`. Its offsets and sizes are
//! checked when the crate is compiled. As `build.rs`, with the crate under `[build-dependencies]`.

use std::{env, error::Error, fs};
use wgsl_types_proved::source::{code, Language};

fn main() -> Result<(), Box<dyn Error>> {
    println!("cargo::rerun-if-changed=src/shader.wgsl");
    let shader = fs::read_to_string("src/shader.wgsl")?;
    Ok(fs::write(env::var("OUT_DIR")? + "/shader.rs", code(shader, Language::Rust)?)?)
}
