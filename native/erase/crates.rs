//! Which sources become part of the crate.

use std::collections::BTreeMap;
use std::fs;
use std::io;
use std::path::{Path, PathBuf};

/// The crates that users reach, by the feature of cargo that asks for them.
const REACHED: [(&str, &str); 4] = [
    ("", "wgsl_calls"),
    ("STANDARD", "wgsl_standard"),
    ("TEXT", "wgsl_reader wgsl_spelling wgsl_requests wgsl_module wgsl_report wgsl_c"),
    ("STD", "wgsl_check wgsl"),
];

/// A source of a crate.
pub struct File {
    /// The name of the crate.
    pub of: String,
    /// The path.
    pub path: PathBuf,
    /// The path of the Rust source, within `OUT_DIR`.
    pub made: PathBuf,
    pub text: String,
}

/// The crates to erase, each after those that it depends on. `crates.txt` has a line for each: its name, perhaps a word
/// that says how it is built, a colon, and the crates that it depends on.
pub fn needed(crates_txt: &str, has_feature: impl Fn(&str) -> bool) -> Vec<String> {
    let mut below: BTreeMap<&str, Vec<&str>> = BTreeMap::new();
    for line in crates_txt.lines().filter(|line| !line.starts_with('#')) {
        let (name, stands_on) = line.split_once(':').unwrap_or((line, ""));
        let name = name.split_whitespace().next().unwrap_or_default();
        below.insert(name, stands_on.split_whitespace().collect());
    }
    let mut needed = Vec::new();
    for (_, roots) in
        REACHED.iter().filter(|(feature, _)| feature.is_empty() || has_feature(feature))
    {
        for root in roots.split(' ') {
            add(root, &below, &mut needed);
        }
    }
    needed
}

fn add(name: &str, below: &BTreeMap<&str, Vec<&str>>, needed: &mut Vec<String>) {
    if needed.iter().any(|other| other == name) {
        return;
    }
    for other in below.get(name).into_iter().flatten() {
        add(other, below, needed);
    }
    needed.push(name.to_string());
}

/// The sources of a crate in the folder `crates`, without those of its tests.
pub fn files(crates: &Path, name: &str) -> io::Result<Vec<File>> {
    let top = crates.join(name).join("src");
    let (mut folders, mut files) = (vec![top.clone()], Vec::new());
    while let Some(folder) = folders.pop() {
        for entry in fs::read_dir(&folder)? {
            let path = entry?.path();
            if path.is_dir() {
                folders.push(path);
            } else if path.extension().is_some_and(|extension| extension == "rt") {
                let inner = path.strip_prefix(&top).unwrap_or(&path).with_extension("rs");
                let is_root = matches!(inner.to_str(), Some("lib.rs" | "main.rs"));
                let made = if is_root {
                    PathBuf::from(format!("{name}.rs"))
                } else {
                    Path::new(name).join(&inner)
                };
                let is_test = inner.starts_with("tests") || inner == Path::new("tests.rs");
                if !is_test {
                    files.push(File {
                        of: name.to_string(),
                        text: fs::read_to_string(&path)?,
                        path,
                        made,
                    });
                }
            }
        }
    }
    files.sort_by(|a, b| a.path.cmp(&b.path));
    Ok(files)
}
