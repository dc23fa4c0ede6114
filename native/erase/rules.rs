//! What is left out, what is replaced, and why the meaning stays the same.

use crate::derives::derive;
use crate::names;
use crate::source::{Refusal, Source};
use std::collections::HashSet;

/// What a rule knows besides the source.
pub struct Project<'s> {
    /// The name of the crate of the source.
    pub name: &'s str,
    /// The names of the methods that have an allocator among their parameters, in all crates.
    pub methods: &'s HashSet<&'s str>,
    /// The traits that sources implement themselves, as pairs of the trait and the type.
    pub written_out: &'s HashSet<(&'s str, &'s str)>,
}

/// A rule is called for each token. If it knows the construct there, it returns the index after it.
type Rule = fn(&mut Source<'_>, usize, &Project<'_>) -> Applied;

/// What a rule returns.
pub type Applied = Result<Option<usize>, Refusal>;

/// The rules. The first one that knows the construct at a token applies.
const RULES: [Rule; 13] = [
    // Left out: contracts, what only these use, and attributes for the prover make no code.
    ghost_item,
    clause,
    attribute,
    // Left out: a program's tests are for the proved build, whose `main` they drive.
    tests,
    // `Drop` in a derive says that values may be dropped, which is true of any value in Rust; an `impl Drop` in a
    // source is refused. If users see the type, it gets the derives that they expect of data, unless the source has its own.
    // Nothing in the sources calls them.
    derive,
    drop_impl,
    // Rust's `Formatter` has no parameter for what it writes to.
    formatter,
    writer,
    replaced,
    // Each crate becomes a module. The names of crates, and `std`, come from the line that is inserted.
    names::path,
    // Rust's `Box`, `Vec`, `String` and `BTreeMap` have functions of these names with other parameters and results, and
    // its integers have some only since 1.87. The shim has Rattle's functions in traits, with a prefix. A name that it
    // lacks doesn't compile.
    names::of_std,
    // So that users have methods of these names without an allocator, and don't see these.
    names::with_allocator,
    // So that users don't see these.
    names::internal,
];

/// The line that is inserted into each file: Rattle's prelude, and the names of crates.
const FIRST_LINE: &str = "#[allow(unused_imports)]\nuse crate::shim::prelude::*;";

/// The source in Rust.
pub fn erase(mut source: Source<'_>, project: &Project<'_>) -> Result<String, Refusal> {
    let mut index = 0;
    while index < source.len() {
        let mut next = index + 1;
        for rule in RULES {
            if let Some(behind) = rule(&mut source, index, project)? {
                next = behind;
                break;
            }
        }
        index = next;
    }
    source.put_first(FIRST_LINE);
    source.edited()
}

/// `ghost use ..;`, `ghost name = {..};`, `ghost name: {..};` or `ghost name: {..},`, with the comments right above.
fn ghost_item(source: &mut Source<'_>, index: usize, _: &Project<'_>) -> Applied {
    if source.at(index) != "ghost" || !source.is_word(index + 1) {
        return Ok(None);
    }
    let end = source
        .find(index, &[";", ",", ")", "]", "}"])
        .filter(|end| matches!(source.at(*end), ";" | ","));
    let end = end.ok_or_else(|| source.refuse(index, "a ghost item without an end"))?;
    let first = if source.before(index, 1) == "pub" { index - 1 } else { index };
    source.leave_out(first, end);
    source.leave_out_comments_above(first);
    Ok(Some(end + 1))
}

/// `requires {..}`, `ensures {..}`, `ensures name {..}` or `ensures* name {..}`.
fn clause(source: &mut Source<'_>, index: usize, _: &Project<'_>) -> Applied {
    if !matches!(source.at(index), "requires" | "ensures") {
        return Ok(None);
    }
    let mut open = index + 1;
    while source.at(open) == "*" || source.is_word(open) {
        open += 1;
    }
    if source.at(open) != "{" {
        return Err(source.refuse(index, "a clause without braces"));
    }
    let behind = source.behind(open);
    source.leave_out(index, behind - 1);
    Ok(Some(behind))
}

/// `#[tactic(..)]`, `#![tactic(..)]` and `#[cycle(..)]`; `#[unsafe(no_mangle)]`, since `native/c` exports. Attributes
/// of Rust stay. Any others are refused.
fn attribute(source: &mut Source<'_>, index: usize, _: &Project<'_>) -> Applied {
    let open = if source.has(index, &["#", "!", "["]) { index + 2 } else { index + 1 };
    if source.at(index) != "#" || source.at(open) != "[" {
        return Ok(None);
    }
    match source.at(open + 1) {
        "tactic" | "cycle" | "unsafe" => {
            let behind = source.behind(open);
            source.leave_out(index, behind - 1);
            Ok(Some(behind))
        }
        "derive" | "inline" | "cold" | "must_use" | "non_exhaustive" | "cfg" => Ok(None),
        name => Err(source.refuse(index, format!("the attribute `{name}` isn't known"))),
    }
}

/// `#[cfg(test)] mod name;`. Any other condition is refused.
fn tests(source: &mut Source<'_>, index: usize, _: &Project<'_>) -> Applied {
    if !source.has(index, &["#", "[", "cfg"]) {
        return Ok(None);
    }
    if !source.has(index + 3, &["(", "test", ")", "]", "mod"]) || source.at(index + 9) != ";" {
        return Err(source.refuse(index, "a condition that isn't `test`, or not of a file"));
    }
    source.leave_out(index, index + 9);
    Ok(Some(index + 10))
}

/// `impl Drop for ..`, which is refused.
fn drop_impl(source: &mut Source<'_>, index: usize, _: &Project<'_>) -> Applied {
    if source.at(index) == "Drop" && source.at(index + 1) == "for" {
        return Err(source.refuse(index, "what happens when a value is let go"));
    }
    Ok(None)
}

/// `Formatter<W>`, which becomes `Formatter<'_>`.
fn formatter(source: &mut Source<'_>, index: usize, _: &Project<'_>) -> Applied {
    if !source.has(index, &["Formatter", "<"]) {
        return Ok(None);
    }
    if !source.is_word(index + 2) || source.at(index + 3) != ">" {
        return Err(source.refuse(index, "a `Formatter` of something else than a parameter"));
    }
    source.put(index + 2, index + 2, "'_");
    Ok(Some(index + 4))
}

/// `<W: Write>` after the name of a function that takes a `Formatter<W>`.
fn writer(source: &mut Source<'_>, index: usize, _: &Project<'_>) -> Applied {
    let open = index + 2;
    if source.at(index) != "fn" || !source.has(open, &["<", "W", ":"]) {
        return Ok(None);
    }
    let Some(close) = source.find(open, &[">"]).filter(|close| source.at(close + 1) == "(") else {
        return Ok(None);
    };
    let parameters = close + 1..source.behind(close + 1);
    let is_formatter = |at: usize| source.has(at, &["Formatter", "<", "W", ">"]);
    if !parameters.into_iter().any(is_formatter) {
        return Ok(None);
    }
    if !source.has(open + 3, &["Write", ">"]) && !source.has(open + 3, &["fmt", "::", "Write", ">"])
    {
        return Err(source.refuse(index, "a `Formatter` beside other parameters of types"));
    }
    source.leave_out(open, close);
    // The name in front of it may have a prefix.
    Ok(None)
}

/// Tokens of which one becomes another text, or is left out with those in front of it if that is empty; and its index among them.
const REPLACED: [(&[&str], usize, &str); 4] = [
    // Here a call from C is a plain function, which `native/c` exports.
    (&["extern", "\"C\"", "fn"], 1, ""),
    // Rust calls a binary's `main` without arguments, so the binary's own `main` calls this one.
    (&["fn", "main", "("], 0, "pub(crate) fn"),
    // In the proofs only the enumeration may be named `Type`. Users know this variant as `Type`.
    (&["TpltParam", "::", "Ty"], 2, "Type"),
    (&["TpltParam", "{", "Ty"], 2, "Type"),
];

/// What [`REPLACED`] lists.
fn replaced(source: &mut Source<'_>, index: usize, _: &Project<'_>) -> Applied {
    let Some((_, at, text)) = REPLACED.iter().find(|row| source.has(index, row.0)) else {
        return Ok(None);
    };
    if text.is_empty() {
        source.leave_out(index, index + at);
    } else {
        source.put(index + at, index + at, *text);
    }
    Ok(Some(index + at + 1))
}
