//! The call around a cursor, with the overload that fits and the parameter that the cursor is in.

use super::document::Document;
use super::json::Json;
use super::mend::{mended, with_word};
use wgsl_types_proved::{module::check, reader::Kind, standard::Overload};

/// The signatures of the call around a byte, that which fits first, or null. If the client reads no offsets, parameters have their texts.
pub fn signature_help(document: &Document, byte: usize, has_offsets: bool) -> Json {
    let found = document.written.checked().signature_at(byte);
    let typed = || {
        let text = with_word(&document.written.text, byte..byte, operand(document, byte));
        check(&mended(&text)).signature_at(byte)
    };
    let is_readable = document.is_readable();
    let found = if is_readable { found } else { typed().or(found) };
    let Some(mut call) = found else { return Json::Null };
    let fitting = call.fitting.unwrap_or(0).min(call.overloads.len() - 1);
    call.overloads[..=fitting].rotate_right(1);
    let signatures = call.overloads.iter().map(|overload| signature(overload, has_offsets));
    object! {
        "signatures": signatures.collect::<Json>(), "activeSignature": 0, "activeParameter": call.argument,
    }
}

/// An overload, with its parameters: their places in units of UTF-16, or their texts.
fn signature(overload: &Overload, has_offsets: bool) -> Json {
    let text = overload.text.as_str();
    let units = |byte: usize| text[..byte].encode_utf16().count();
    let parameters = overload.parameters().into_iter().map(|at| match has_offsets {
        true => object! { "label": [at.start, at.end].map(units).into_iter().collect::<Json>() },
        false => object! { "label": &text[at] },
    });
    object! { "label": text, "parameters": parameters.collect::<Json>() }
}

/// The operand that is missing at a byte: none behind an operand, a bracket and a comma.
fn operand(document: &Document, byte: usize) -> &'static str {
    use Kind::*;
    let module = document.module();
    match module.kind(module.index(byte).wrapping_sub(1)) {
        OpenRound | Comma | Name | Number | True | False | CloseRound | CloseSquare => "",
        _ => "x",
    }
}
