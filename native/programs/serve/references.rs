//! Where names are declared and used, and other names for them.

use super::document::Document;
use super::json::Json;
use super::wire::{ErrorCode, Refused};
use std::ops::Range;
use wgsl_types_proved::module::check;
use wgsl_types_proved::reader::{tokens, Kind};

/// Where the name at a byte is declared, or null.
pub fn definition(document: &Document, byte: usize) -> Json {
    document.module().checked().declaration_at(byte).map(|bytes| document.location(&bytes)).into()
}

/// Where the name at a byte is used.
pub fn references(document: &Document, byte: usize, with_declaration: bool) -> Json {
    let checked = document.module().checked();
    let Some(declared) = checked.declaration_at(byte) else { return Json::NONE };
    let uses = checked.uses_of(&declared).into_iter();
    let uses = uses.filter(|bytes| with_declaration || *bytes != declared);
    uses.map(|bytes| document.location(&bytes)).collect()
}

/// The name at a byte that can be renamed, or null.
pub fn prepare_rename(document: &Document, byte: usize) -> Json {
    let checked = document.module().checked();
    let word = checked.declaration_at(byte).and_then(|_| checked.word_at(byte));
    word.map(|bytes| document.range(&bytes)).into()
}

/// The edits that give the name at a byte another one.
///
/// # Errors
///
/// If there is no name, if the other one is none, and if it would hide another name or be hidden.
pub fn rename(document: &Document, byte: usize, new: &str) -> Result<Json, Refused> {
    let refuse = |text: String| Err(Refused(ErrorCode::Failed, text));
    if !is_name(new) {
        return refuse(format!("`{new}` is no name"));
    }
    let module = document.module();
    let Some(declared) = module.checked().declaration_at(byte) else {
        return refuse("no name of this document is here".into());
    };
    let uses = module.checked().uses_of(&declared);
    if !keeps_uses(&module.text, &declared, &uses, new) {
        return refuse(format!("`{new}` has another meaning here"));
    }
    let edit = |bytes| object! { "range": document.range(bytes), "newText": new };
    let changes = Json::Object(vec![(document.uri.clone(), uses.iter().map(edit).collect())]);
    Ok(object! { "changes": changes })
}

/// Whether a text is one name.
fn is_name(text: &str) -> bool {
    let tokens = tokens(text).unwrap_or_default();
    matches!(tokens[..], [token] if token.kind == Kind::Name && token.len == text.len())
}

/// Whether the same words refer to the declaration when they have another name.
fn keeps_uses(text: &str, declared: &Range<usize>, uses: &[Range<usize>], new: &str) -> bool {
    let (mut renamed, mut moved, mut copied) = (String::new(), Vec::new(), 0);
    for bytes in uses {
        renamed += &text[copied..bytes.start];
        moved.push(renamed.len()..renamed.len() + new.len());
        renamed += new;
        copied = bytes.end;
    }
    renamed += &text[copied..];
    let index = uses.iter().position(|bytes| bytes == declared);
    index.is_some_and(|index| check(&renamed).uses_of(&moved[index]) == moved)
}
