//! Lists of names, from the functions of the sources that read them.

use crate::source::{Refusal, Source};
use std::path::Path;

/// The name of a list; the source, and the function or the table whose texts are its names.
const LISTS: [(&str, &str, [&str; 2]); 9] = [
    ("SCALARS", "wgsl_syntax/src/scalar.rt", ["fn", "scalar_named"]),
    ("ACCESS_MODES", "wgsl_syntax/src/address.rt", ["fn", "access_named"]),
    ("SPACES", "wgsl_syntax/src/address.rt", ["fn", "space_named"]),
    ("FORMATS", "wgsl_syntax/src/texel.rt", ["static", "TEXELS"]),
    ("FLAGS", "wgsl_syntax/src/attribute.rt", ["static", "FLAGS"]),
    ("BUILTIN_VALUES", "wgsl_syntax/src/builtin_value.rt", ["static", "BUILTIN_VALUES"]),
    ("ATTRIBUTES", "wgsl_source/src/attribute.rt", ["fn", "attribute_named"]),
    ("ENABLED", "wgsl_source/src/extension.rt", ["const", "ENABLED"]),
    ("REQUIRED", "wgsl_source/src/extension.rt", ["const", "REQUIRED"]),
];

/// The constants of the lists that the Rust source of a file has.
pub fn lists(path: &str, made: &str) -> Result<String, Refusal> {
    let source = Source::new(path, made)?;
    let mut constants = String::new();
    for (list, _, item) in LISTS.iter().filter(|(_, file, _)| Path::new(path).ends_with(file)) {
        let name = (0..source.len()).find(|at| source.has(*at, item));
        let open = match item[0] {
            "const" => name.and_then(|at| Some(source.find(at, &["="])? + 1)),
            _ => name.and_then(|at| source.find(at, &["{"])),
        };
        let open = open.ok_or_else(|| source.refuse(0, format!("no {}", item.join(" "))))?;
        let body = (open..source.behind(open)).map(|at| source.at(at));
        let names: Vec<&str> = body.filter(|text| text.starts_with('"')).collect();
        constants += &format!("pub const {list}: &[&str] = &[{}];\n", names.join(", "));
    }
    Ok(constants)
}
