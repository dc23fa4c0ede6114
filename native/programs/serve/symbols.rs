//! The declarations of a document, and what they leave out: the types of names, the offsets and the paddings of members.

use super::document::{Document, Module};
use super::json::Json;
use std::ops::Range;
use wgsl_types_proved::module::Name;

/// Which hints the client wants.
#[derive(Clone, Copy, Debug)]
pub struct HintOptions {
    pub types: bool,
    pub offsets: bool,
    pub paddings: bool,
}

/// The kinds of symbols that there are (LSP, "SymbolKind").
enum SymbolKind {
    Class = 5,
    Field = 8,
    Function = 12,
    Variable = 13,
    Constant = 14,
    Struct = 23,
}

/// The declarations of the module, structs with their members.
pub fn document_symbols(document: &Document) -> Json {
    let module = document.module();
    let declared = module.declared().into_iter();
    declared.map(|(name, bytes)| symbol(document, module, name, &bytes)).collect()
}

fn symbol(document: &Document, module: &Module, name: &Name, bytes: &Range<usize>) -> Json {
    let head = module.head(bytes);
    let kind = match head.split(|c: char| !c.is_ascii_alphabetic()).next() {
        Some("fn") => SymbolKind::Function,
        Some("struct") => SymbolKind::Struct,
        Some("alias") => SymbolKind::Class,
        Some("var") => SymbolKind::Variable,
        _ => SymbolKind::Constant,
    };
    let members = module.checked().members_of(name).into_iter().map(|member| {
        let whole = member.name.start..member.ty.end;
        object! {
            "name": &module.text[member.name.clone()], "detail": &module.text[member.ty],
            "kind": SymbolKind::Field as i32,
            "range": document.range(&whole), "selectionRange": document.range(&member.name),
        }
    });
    let head = head.split_whitespace().collect::<Vec<_>>().join(" ");
    object! {
        "name": name.text.as_str(), "detail": head, "kind": kind as i32,
        "range": document.range(&module.declaration(bytes)), "selectionRange": document.range(bytes),
        "children": members.collect::<Json>(),
    }
}

/// The hints within some bytes.
pub fn inlay_hints(document: &Document, within: &Range<usize>, options: HintOptions) -> Json {
    let module = document.module();
    let mut hints = Vec::new();
    if options.types {
        hints.extend(module.checked().names.iter().filter_map(|name| {
            Some((name.bytes.as_ref()?.end, format!(": {}", name.inferred_type()?), false))
        }));
    }
    for (name, ty, member) in module.laid_out() {
        if options.offsets {
            hints.push((name.start, format!("{}:", member.offset), true));
        }
        if options.paddings && member.padding > 0 {
            hints.push((ty.end, format!("{} bytes of padding", member.padding), false));
        }
    }
    hints.retain(|(byte, ..)| within.start <= *byte && *byte <= within.end);
    hints.sort();
    let hints = hints.into_iter().map(|(byte, label, is_front)| {
        let is_type = label.starts_with(':');
        let hint = object! {
            "position": document.position(byte), "label": label,
            "paddingLeft": !is_front && !is_type, "paddingRight": is_front,
        };
        hint.with("kind", is_type.then_some(1))
    });
    hints.collect()
}
