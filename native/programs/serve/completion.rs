//! What may stand at a cursor.

use super::cursor::{Around, Cursor};
use super::document::{Document, Module};
use super::json::Json;
use super::mend::{mended, with_word, without_strange};
use std::sync::OnceLock;
use wgsl_types_proved::module::{Checked, Meaning, Name, Stage};
use wgsl_types_proved::predeclared::{builtin_values, enumerants, extensions, functions, types};
use wgsl_types_proved::reader::{tokens, Kind::*};
use wgsl_types_proved::standard::{overloads, type_of_member, Operand, Overload};
use wgsl_types_proved::syntax::{AccessMode, AddressSpace, TexelFormat};
use wgsl_types_proved::Type;

/// The kinds of items that there are (LSP, "CompletionItemKind").
#[derive(Clone, Copy)]
enum ItemKind {
    Function = 3,
    Field = 5,
    Variable = 6,
    Property = 10,
    Keyword = 14,
    EnumMember = 20,
    Constant = 21,
    Struct = 22,
    Type = 25,
}

const DECLARATIONS: &str = "alias const const_assert enable fn override requires struct var";
const STATEMENTS: &str =
    "break const const_assert continue continuing discard for if let loop return \
     switch var while";

/// The attributes, with how they are written, and what encloses them.
const ATTRIBUTES: [(&str, &str, &[Around]); 16] = [
    ("align", "@align(bytes)", &[Around::Members]),
    ("binding", "@binding(number)", &[Around::Module]),
    ("blend_src", "@blend_src(0 or 1)", &INTERFACE),
    ("builtin", "@builtin(name)", &INTERFACE),
    ("compute", "@compute", &[Around::Module]),
    ("diagnostic", "@diagnostic(severity, rule)", &[Around::Module, Around::Block]),
    ("fragment", "@fragment", &[Around::Module]),
    ("group", "@group(number)", &[Around::Module]),
    ("id", "@id(number)", &[Around::Module]),
    ("interpolate", "@interpolate(type, sampling)", &INTERFACE),
    ("invariant", "@invariant", &INTERFACE),
    ("location", "@location(number)", &INTERFACE),
    ("must_use", "@must_use", &[Around::Module]),
    ("size", "@size(bytes)", &[Around::Members]),
    ("vertex", "@vertex", &[Around::Module]),
    ("workgroup_size", "@workgroup_size(x, y, z)", &[Around::Module]),
];

const INTERFACE: [Around; 3] = [Around::Members, Around::Parameters, Around::Header];

/// The items at a byte.
pub fn completion(document: &Document, byte: usize) -> Json {
    let is_word = |c: char| c == '_' || c.is_alphanumeric();
    let written = &document.written.text;
    let start = written[..byte].trim_end_matches(is_word).len();
    let end = written.len() - written[byte..].trim_start_matches(is_word).len();
    let text = without_strange(&with_word(written, start..end, "x"));
    match Cursor::of(tokens(&text).unwrap_or_default(), start) {
        Some(cursor) => items(&cursor, &Module::of(mended(&text)), &text, start),
        None => Json::NONE,
    }
}

/// The items at a cursor, by what is in front of it.
fn items(cursor: &Cursor, module: &Module, text: &str, byte: usize) -> Json {
    let types = types_in(module, byte);
    let values = values_in(module.checked(), byte);
    let enumerated = enumerants().map(enumerant);
    let [enabled, required] = extensions();
    match (cursor.back(1), cursor.around) {
        (Period, _) => members(module, byte),
        (At, around) => attributes(around).collect(),
        (OpenRound, Around::Attribute(_)) if cursor.text_back(2, text) == "builtin" => {
            let value = |name| item(name, ItemKind::EnumMember, "built-in value");
            builtin_values().map(value).collect()
        }
        (Enable | Comma, Around::Module) if cursor.listed() == Enable => extension_items(enabled),
        (Requires | Comma, Around::Module) if cursor.listed() == Requires => {
            extension_items(required)
        }
        (Colon, Around::Clauses) => values.chain(keywords(STATEMENTS)).collect(),
        (Arrow | Colon, _) => types.collect(),
        (Equal, _) if cursor.back(3) == Alias => types.collect(),
        (OpenTemplate | Less, _) if cursor.back(2) == Var => enumerated.collect(),
        (OpenTemplate, _) | (Comma, Around::Template) => types.chain(enumerated).collect(),
        (Less, _) if opens_list(cursor.text_back(2, text)) => types.chain(enumerated).collect(),
        (Semicolon | OpenCurly | CloseCurly | CloseRound | Name | End, Around::Module) => {
            keywords(DECLARATIONS).collect()
        }
        (Semicolon | OpenCurly | CloseCurly, Around::Clauses) => keywords("case default").collect(),
        (Semicolon | OpenCurly | CloseCurly | CloseRound | Else, Around::Block) => {
            values.chain(keywords(STATEMENTS)).collect()
        }
        (_, Around::Parameters | Around::Members | Around::Header) => Json::NONE,
        (Fn | Struct | Alias | Let | Var | Const | Override, _) => Json::NONE,
        (Name | Number | True | False | CloseSquare | CloseRound | CloseTemplate, _) => Json::NONE,
        _ => values.collect(),
    }
}

/// An enumerant, with what it is one of.
fn enumerant(name: &str) -> Json {
    let detail = match name {
        _ if name.parse::<TexelFormat>().is_ok() => "texel format",
        _ if name.parse::<AccessMode>().is_ok() => "access mode",
        _ if name == "immediate" || name.parse::<AddressSpace>().is_ok() => "address space",
        _ => "",
    };
    item(name, ItemKind::EnumMember, detail)
}

/// Whether a `<` behind a name opens a template list that isn't closed.
fn opens_list(name: &str) -> bool {
    let is_generic = || types().any(|of| of == name) && Type::predeclared(name).is_none();
    is_generic() || overloads(name).iter().any(Overload::has_template)
}

fn item(label: &str, kind: ItemKind, detail: &str) -> Json {
    let detail = Some(detail).filter(|detail| !detail.is_empty());
    object! { "label": label, "kind": kind as i32 }.with("detail", detail)
}

fn keywords(words: &str) -> impl Iterator<Item = Json> + '_ {
    words.split(' ').map(|word| item(word, ItemKind::Keyword, ""))
}

fn attributes(around: Around) -> impl Iterator<Item = Json> {
    let all = ATTRIBUTES.iter().filter(move |attribute| attribute.2.contains(&around));
    all.map(|(name, form, _)| item(name, ItemKind::Property, form))
}

/// The types that a declaration can name.
fn types_in(module: &Module, byte: usize) -> impl Iterator<Item = Json> + '_ {
    let names = module.checked().names_at(byte).into_iter().filter(|name| {
        let head = name.bytes.as_ref().map_or("", |bytes| module.head(bytes));
        head.starts_with("struct ") || head.starts_with("alias ")
    });
    names.map(|name| named(module.checked(), name)).chain(predeclared().0.iter().cloned())
}

/// What an expression can begin with.
fn values_in(checked: &Checked, byte: usize) -> impl Iterator<Item = Json> + '_ {
    let names = checked.names_at(byte).into_iter().map(|name| named(checked, name));
    let (types, functions) = predeclared();
    names.chain(types.iter().chain(functions).cloned())
}

fn extension_items(names: Vec<&str>) -> Json {
    names.into_iter().map(|name| item(name, ItemKind::EnumMember, "extension")).collect()
}

/// A name, with its type or its signature.
fn named(checked: &Checked, name: &Name) -> Json {
    let overload = || checked.overload_of(name).map(|of| of.text).unwrap_or_default();
    let (kind, detail) = match &name.meaning {
        Meaning::Value(ty @ Type::Ref(..), _) => (ItemKind::Variable, loaded(ty).to_string()),
        Meaning::Value(ty, Stage::Runtime) => (ItemKind::Variable, ty.to_string()),
        Meaning::Value(ty, _) => (ItemKind::Constant, ty.to_string()),
        Meaning::Type(Type::Struct(_)) => (ItemKind::Struct, overload()),
        Meaning::Type(ty) => (ItemKind::Type, ty.to_string()),
        Meaning::Function => (ItemKind::Function, overload()),
        _ => (ItemKind::Variable, String::new()),
    };
    item(&name.text, kind, &detail)
}

/// The predeclared types, and the functions with the first of their overloads.
fn predeclared() -> &'static (Vec<Json>, Vec<Json>) {
    static ITEMS: OnceLock<(Vec<Json>, Vec<Json>)> = OnceLock::new();
    ITEMS.get_or_init(|| {
        let functions = functions().map(|name| {
            let overloads = overloads(name);
            let first = overloads.first().map_or("", |of| of.text.as_str());
            let more = match overloads.len() {
                0 | 1 => String::new(),
                count => format!(" (+{} overloads)", count - 1),
            };
            item(name, ItemKind::Function, &format!("{first}{more}"))
        });
        let types = types().map(|name| {
            let ty = Type::predeclared(name).map_or_else(|| generic(name), |ty| ty.to_string());
            item(name, ItemKind::Type, if ty == name { "" } else { &ty })
        });
        (types.collect(), functions.collect())
    })
}

/// A type that needs a template list, with what stands in that.
fn generic(name: &str) -> String {
    let list = match name {
        "array" | "binding_array" => "type, count",
        "ptr" => "space, type, access",
        _ if name.starts_with("texture_storage") => "format, access",
        _ => "type",
    };
    format!("{name}<{list}>")
}

/// The members and the components of the expression in front of the `.` before a byte, or if it has a fault, of what a name there
/// is declared as.
fn members(module: &Module, byte: usize) -> Json {
    let front = module.text[..byte].trim_end().len().saturating_sub(1);
    let (checked, found) = (module.checked(), module.checked().type_before(front));
    let declared = if found.is_none() { declared_type(module, front) } else { None };
    let name = match found.map(loaded) {
        Some(Type::Struct(of)) => Some(of.name.as_str()),
        _ => declared,
    };
    let structure = name.and_then(|name| checked.struct_named(name));
    let ty = found.cloned().or_else(|| declared?.parse().ok());
    match (structure, ty) {
        (Some(structure), _) => members_of(module, structure),
        (None, Some(ty)) => components_of(ty),
        (None, None) => Json::NONE,
    }
}

/// How the declaration of the name, or of the names with `.` between, in front of a byte says its type.
fn declared_type(module: &Module, byte: usize) -> Option<&str> {
    let (at, checked) = (module.index(byte).checked_sub(1)?, module.checked());
    let word = module.tokens()[at];
    let before = at.checked_sub(1).map(|before| module.tokens()[before]);
    if let Some(period) = before.filter(|before| before.kind == Period) {
        let structure = checked.struct_named(declared_type(module, period.at)?)?;
        let members = checked.members_of(structure).into_iter();
        let mut named =
            members.filter(|of| module.text[of.name.clone()] == *word.text(&module.text));
        return named.next().map(|member| &module.text[member.ty]);
    }
    let (_, declared) = module.head(&checked.declaration_at(word.at)?).split_once(':')?;
    declared.split('=').next().map(str::trim)
}

fn members_of(module: &Module, structure: &Name) -> Json {
    let laid_out: Vec<_> = module.laid_out().collect();
    let members = module.checked().members_of(structure).into_iter().map(|member| {
        let place = laid_out.iter().find(|(name, ..)| *name == member.name);
        let place = place.map(|(.., of)| format!(", offset {}, size {}", of.offset, of.size));
        let detail = format!("{}{}", &module.text[member.ty], place.unwrap_or_default());
        item(&module.text[member.name], ItemKind::Field, &detail)
    });
    members.collect()
}

/// The components of a vector; none of another type.
fn components_of(ty: Type) -> Json {
    let Type::Vec(count, _) = *loaded(&ty) else { return Json::NONE };
    let operand = Operand::new(ty);
    let components = components(usize::from(count)).filter_map(|name| {
        let component = type_of_member(&operand, &name).ok()?;
        Some(item(&name, ItemKind::Field, &loaded(&component.ty).to_string()))
    });
    components.collect()
}

/// What a reference or a pointer is to.
fn loaded(ty: &Type) -> &Type {
    match ty {
        Type::Ref(_, of, _) | Type::Ptr(_, of, _) => loaded(of),
        _ => ty,
    }
}

/// The components of a vector, and the swizzles that are in order: `xy`, `yz`, `xyz`, ..
fn components(count: usize) -> impl Iterator<Item = String> {
    let ranges = move |len| (0..=count - len).map(move |start| start..start + len);
    let of_letters = move |letters: &'static str| {
        (1..=count).flat_map(ranges).map(move |range| letters[range].to_string())
    };
    ["xyzw", "rgba"].into_iter().flat_map(of_letters)
}
