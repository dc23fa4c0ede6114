//! Makes plain Rust of the proved sources: `crates/*/src/**/*.rt` without their contracts, as modules of one crate, in
//! cargo's `OUT_DIR`. `rules.rs` says what is left out and what is replaced. All else stays as it is, byte by byte,
//! comments too. If no rule knows a construct, the build fails and names its file and line. `lists.rs` makes lists of names.

mod crates;
mod derives;
mod lists;
mod names;
mod rules;
mod source;
mod token;

use crates::{files, needed, File};
use rules::{erase, Project};
use source::Source;
use std::{collections::HashSet, env, error::Error, fs, path::Path, process::ExitCode};

fn main() -> ExitCode {
    match erase_all() {
        Ok(()) => ExitCode::SUCCESS,
        Err(error) => {
            eprintln!("{error}");
            ExitCode::FAILURE
        }
    }
}

/// Erases the sources that the features ask for.
fn erase_all() -> Result<(), Box<dyn Error>> {
    let folder = env::var_os("OUT_DIR").ok_or("cargo names no folder")?;
    for path in ["crates.txt", "crates", "native/erase"] {
        println!("cargo:rerun-if-changed={path}");
    }
    let has_feature = |name: &str| env::var_os(format!("CARGO_FEATURE_{name}")).is_some();
    let names = needed(&fs::read_to_string("crates.txt")?, has_feature);
    let mut all = Vec::new();
    for name in &names {
        all.extend(files(Path::new("crates"), name)?);
    }
    write_all(&all, Path::new(&folder))?;
    let modules: String = names.iter().map(|name| format!("pub mod {name};\n")).collect();
    fs::write(Path::new(&folder).join("proved.rs"), modules)?;
    Ok(())
}

/// Writes the Rust source of each file, and the lists of names.
fn write_all(files: &[File], folder: &Path) -> Result<(), Box<dyn Error>> {
    let paths: Vec<String> = files.iter().map(|file| file.path.display().to_string()).collect();
    let (mut methods, mut written_out) = (HashSet::new(), HashSet::new());
    let mut sources = Vec::new();
    for (file, path) in files.iter().zip(&paths) {
        let source = Source::new(path, &file.text).map_err(|refusal| refusal.to_string())?;
        methods.extend(names::methods_with_allocator(&source));
        written_out.extend(derives::written_out(&source));
        sources.push(source);
    }
    let mut lists = String::new();
    for ((file, path), source) in files.iter().zip(&paths).zip(sources) {
        let project = Project { name: &file.of, methods: &methods, written_out: &written_out };
        let made = erase(source, &project).map_err(|refusal| refusal.to_string())?;
        lists += &lists::lists(path, &made).map_err(|refusal| refusal.to_string())?;
        let path = folder.join(&file.made);
        fs::create_dir_all(path.parent().unwrap_or(folder))?;
        fs::write(path, made)?;
    }
    fs::write(folder.join("lists.rs"), lists)?;
    Ok(())
}
