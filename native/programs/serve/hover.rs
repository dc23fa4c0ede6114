//! What is shown at a byte: the type of the expression there, and the declaration to which its name refers.

use super::document::{Document, Module};
use super::json::Json;
use std::ops::Range;
use wgsl_types_proved::{module::Stage, predeclared::types, standard::overloads, Type};

/// How many overloads are shown.
const MOST_OVERLOADS: usize = 8;

/// How long an expression may be that is shown with its type.
const MOST_BYTES: usize = 80;

/// What is shown at a byte, in Markdown or as plain text; or null.
pub fn hover(document: &Document, byte: usize, is_markdown: bool) -> Json {
    let module = document.module();
    let word = module.checked().word_at(byte);
    let expression = expression(module, word.as_ref().map_or(byte, |word| word.start));
    let declared = word.as_ref().and_then(|word| told_of_word(module, word));
    let bytes = word.filter(|_| declared.is_some()).or(expression.as_ref().map(|of| of.0.clone()));
    let Some(bytes) = bytes else { return Json::Null };
    let mut blocks: Vec<String> = expression.map(|of| of.1).into_iter().chain(declared).collect();
    blocks.dedup();
    let text = blocks.join("\n\n");
    let (kind, text) = match is_markdown {
        true => ("markdown", text),
        false => ("plaintext", text.replace("```wgsl\n", "").replace("\n```", "")),
    };
    object! {
        "contents": object! { "kind": kind, "value": text }, "range": document.range(&bytes),
    }
}

fn code(text: &str) -> String {
    format!("```wgsl\n{text}\n```")
}

/// The smallest expression around a byte, with its type and when its value is known.
fn expression(module: &Module, byte: usize) -> Option<(Range<usize>, String)> {
    let part = module.checked().part_at(byte)?;
    let (ty, stage) = part.typed.as_ref()?;
    let text = Some(&module.text[part.bytes.clone()]).filter(|text| text.len() <= MOST_BYTES);
    let typed = code(&format!("{}: {ty}", text.unwrap_or("_")));
    let stage = match stage {
        Stage::Const => "\n\na const-expression",
        Stage::Override => "\n\nan override-expression",
        _ => "",
    };
    Some((part.bytes.clone(), typed + stage))
}

/// What declares a word, or what WGSL says of it.
fn told_of_word(module: &Module, word: &Range<usize>) -> Option<String> {
    let Some(name) = module.checked().declaration_at(word.start) else {
        return told_of_predeclared(&module.text[word.clone()]);
    };
    if let Some((_, _, member)) = module.laid_out().find(|(bytes, ..)| *bytes == name) {
        let place =
            format!("offset {}, size {}, alignment {}", member.offset, member.size, member.align);
        return Some(code(module.head(&name)) + "\n\n" + &place);
    }
    let inferred = module.checked().names.iter().find(|of| of.bytes.as_ref() == Some(&name));
    let inferred = inferred.and_then(|of| of.inferred_type());
    let inferred = inferred.map_or(String::new(), |ty| format!(" // {ty}"));
    let of_struct = layout(module, &module.text[name.clone()]);
    Some(code(&format!("{}{inferred}", module.head(&name))) + &of_struct.unwrap_or_default())
}

/// The size of the struct with a name, if it has a layout.
fn layout(module: &Module, name: &str) -> Option<String> {
    module.checked().struct_named(name)?;
    let of = module.layouts().structs.iter().find(|of| of.name == name)?;
    Some(format!("\n\nsize {}, alignment {}", of.size, of.align))
}

fn told_of_predeclared(word: &str) -> Option<String> {
    let overloads = overloads(word);
    if !overloads.is_empty() {
        let shown = overloads.iter().take(MOST_OVERLOADS).map(|of| of.text.as_str());
        let shown = code(&shown.collect::<Vec<_>>().join("\n"));
        let left = overloads.len().saturating_sub(MOST_OVERLOADS);
        let left = if left > 0 { format!("\n\nand {left} more") } else { String::new() };
        return Some(shown + &left);
    }
    let alias = types().find(|name| *name == word).and_then(Type::predeclared);
    alias.map(|ty| code(&format!("alias {word} = {ty}")))
}
