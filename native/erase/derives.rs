//! The derives of a type.

use crate::names::has_word;
use crate::rules::{Applied, Project};
use crate::source::{Refusal, Source};
use std::collections::HashSet;

/// The traits that Rust's users expect of data.
const OF_DATA: [&str; 5] = ["Clone", "Debug", "PartialEq", "Eq", "Hash"];

/// The crates whose types users see, and the types that they see of other crates.
const SEEN: &str = "wgsl_syntax wgsl_core wgsl_calls wgsl_standard::Declaration wgsl_standard::Referent wgsl_reader::Event \
    wgsl_reader::Kind wgsl_reader::Mark wgsl_reader::Misread wgsl_reader::Rule wgsl_reader::Token wgsl_source::Stage \
    wgsl_report::Place";

/// `#[derive(..)]`, which becomes the derives of data if users see the type, except those that the source implements itself.
pub fn derive(source: &mut Source<'_>, index: usize, project: &Project<'_>) -> Applied {
    if !source.has(index, &["#", "[", "derive", "("]) {
        return Ok(None);
    }
    let (first, close) = (index + 4, source.behind(index + 3) - 1);
    let mut derives: Vec<&str> = (first..close)
        .map(|at| source.at(at))
        .filter(|name| !matches!(*name, "," | "Drop"))
        .collect();
    let name = declared(source, close + 2)?;
    let is_seen =
        has_word(SEEN, project.name) || has_word(SEEN, &format!("{}::{name}", project.name));
    let missing = OF_DATA.iter().filter(|of| {
        is_seen && !derives.contains(of) && !project.written_out.contains(&(**of, name))
    });
    let missing: Vec<&str> = missing.copied().collect();
    derives.extend(missing);
    source.put(first, close - 1, derives.join(", "));
    Ok(Some(close + 2))
}

/// The name of the type after its attributes.
fn declared<'s>(source: &Source<'s>, index: usize) -> Result<&'s str, Refusal> {
    let item = source.find(index, &["struct", "enum"]);
    let item = item.ok_or_else(|| {
        source.refuse(index, "a derive of something else than a struct or an enumeration")
    })?;
    Ok(source.at(item + 1))
}

/// The traits and types of the `impl Trait for Type` of a source.
pub fn written_out<'s>(source: &Source<'s>) -> HashSet<(&'s str, &'s str)> {
    let words =
        (1..source.len()).filter(|at| source.at(*at) == "for" && source.before(*at, 2) == "impl");
    words.map(|at| (source.at(at - 1), source.at(at + 1))).collect()
}
