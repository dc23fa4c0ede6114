//! Names that are replaced.

use crate::rules::{Applied, Project};
use crate::source::Source;
use std::collections::HashSet;

/// The prefix of a name that means something else in Rust.
const PREFIX: &str = "rattle_";

/// Functions of std's types that have other parameters or results in Rattle.
const FUNCTIONS: [(&str, &[&str]); 5] = [
    ("Box", &["new", "into_inner"]),
    ("Vec", &["new", "with_capacity"]),
    ("String", &["new", "from_str"]),
    ("BTreeMap", &["new"]),
    ("BTreeSet", &["new"]),
];

/// Methods of std's types that have other parameters or results in Rattle, or that older compilers lack.
const METHODS: &str = "push push_str push_reserved extend_from_slice insert reserve to_string cast_signed cast_unsigned \
    is_multiple_of";

/// Methods of public types that only proofs need, or that have types which aren't public.
const INTERNAL: &str =
    "around form inner is_convertible_to_vector is_integer_or_vector layer name parameters \
    result_struct scalar_type size_and_align_of";

/// Whether a list of words has this one.
pub fn has_word(words: &str, word: &str) -> bool {
    words.split(' ').any(|listed| listed == word)
}

/// `crate::`, which becomes the path of the crate's module.
pub fn path(source: &mut Source<'_>, index: usize, project: &Project<'_>) -> Applied {
    if !source.has(index, &["crate", "::"]) {
        return Ok(None);
    }
    source.put(index, index, format!("crate::proved::{}", project.name));
    Ok(Some(index + 2))
}

/// `Vec::new(`, `.push(` and their like. Methods of these names that a source declares have the prefix too.
pub fn of_std(source: &mut Source<'_>, index: usize, _: &Project<'_>) -> Applied {
    let (name, ty) = (source.at(index), source.before(index, 2));
    let is_called = matches!(source.at(index + 1), "(" | "::");
    let is_function = || FUNCTIONS.iter().any(|(of, names)| *of == ty && names.contains(&name));
    let is_method = || source.at(index + 1) == "(" && has_word(METHODS, name);
    match source.before(index, 1) {
        "::" if is_called && is_function() => {}
        "." if is_method() => {}
        "fn" if is_method() && (index..index + 5).any(|at| source.at(at) == "self") => {}
        _ => return Ok(None),
    }
    source.put(index, index, format!("{PREFIX}{name}"));
    Ok(Some(index + 1))
}

/// A method with an allocator: where it is declared, and `.name(.. alloc ..)` or `Type::name(.. alloc ..)`.
pub fn with_allocator(source: &mut Source<'_>, index: usize, project: &Project<'_>) -> Applied {
    let name = source.at(index);
    if source.at(index + 1) != "(" || !project.methods.contains(name) {
        return Ok(None);
    }
    let is_prefixed = match source.before(index, 1) {
        "fn" => methods(source).contains(&index),
        "." => has_allocator(source, index + 1),
        "::" => {
            source.before(index, 2).starts_with(char::is_uppercase)
                && has_allocator(source, index + 1)
        }
        _ => false,
    };
    if !is_prefixed {
        return Ok(None);
    }
    source.put(index, index, format!("{PREFIX}{name}"));
    if source.before(index, 1) == "fn" && source.before(index, 2) == "pub" {
        source.put(index - 2, index - 2, "pub(crate)");
    }
    Ok(Some(index + 1))
}

/// A method that isn't for users.
pub fn internal(source: &mut Source<'_>, index: usize, _: &Project<'_>) -> Applied {
    if !source.has(index, &["pub", "fn"]) || !has_word(INTERNAL, source.at(index + 2)) {
        return Ok(None);
    }
    source.put(index, index, "pub(crate)");
    Ok(Some(index + 1))
}

/// Whether arguments have the allocator among them.
fn has_allocator(source: &Source<'_>, open: usize) -> bool {
    let close = source.behind(open) - 1;
    let mut at = open + 1;
    while at < close {
        if source.at(at) == "alloc" {
            return true;
        }
        at = source.behind(at);
    }
    false
}

/// The indices of the names of methods that have a parameter of the type `Global`.
fn methods(source: &Source<'_>) -> HashSet<usize> {
    let mut methods = HashSet::new();
    let mut end = 0;
    for index in 0..source.len() {
        let is_item = matches!(source.at(index), "impl" | "trait")
            && matches!(source.before(index, 1), "" | "}" | ";" | "]" | "pub" | ")");
        if is_item && index >= end {
            end = source.find(index, &["{"]).map_or(end, |open| source.behind(open));
        }
        if source.at(index) == "fn" && source.is_word(index + 1) && index < end {
            let Some(open) = source.find(index, &["("]) else {
                continue;
            };
            if (open..source.behind(open)).any(|at| source.at(at) == "Global") {
                methods.insert(index + 1);
            }
        }
    }
    methods
}

/// The names of the methods that have a parameter of the type `Global`.
pub fn methods_with_allocator<'s>(source: &Source<'s>) -> HashSet<&'s str> {
    methods(source).into_iter().map(|index| source.at(index)).collect()
}
