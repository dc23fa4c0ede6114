//! Types and literals as WGSL spells them: what is read, and what is refused where.

use crate::tables;
use wgsl_types_proved::reader::tokens;
use wgsl_types_proved::requests::standard_answer;
use wgsl_types_proved::source::{layouts, types};
use wgsl_types_proved::Type;

/// The rows of a file, which are this many. Of a type these are a text, what it is or `refused`, and what a WGSL file has there: a file evaluates
/// calls, and refuses what only requests have (references, access modes of every pointer, abstract types) and types that no
/// declaration may have.
fn rows<const CELLS: usize>(name: &str, count: usize) -> Vec<[String; CELLS]> {
    let rows = tables::rows(&format!("spellings/{name}.txt"));
    assert_eq!(rows.len(), count, "{name}");
    rows
}

/// What is read, or `refused`.
fn or_refused<T: ToString>(found: Option<T>) -> String {
    found.map_or("refused".to_string(), |found| found.to_string())
}

/// What an alias of a file is that has this text.
fn type_in_file(text: &str) -> String {
    let file = format!("enable f16; alias A = {text};");
    let is_read = layouts(&file).errors.is_empty();
    or_refused(types(&file).remove("A").filter(|_| is_read))
}

/// What `type` answers to a text, by WGSL's own rules.
fn type_of(text: &str) -> String {
    or_refused(standard_answer(&format!("type {text}")).ok())
}

#[test]
fn each_type_is_read_by_each_door() {
    for [text, expected, in_file] in rows("types", 93) {
        assert_eq!(type_in_file(&text), in_file, "a file with {text}");
        assert_eq!(or_refused(text.parse::<Type>().ok()), expected, "{text}");
        // An expression may stand in brackets, and a request is one line.
        if text != "(vec3f)" && !text.contains('\n') {
            assert_eq!(type_of(&text), expected, "type {text}");
        }
    }
    assert_eq!(type_of("(vec3f)"), "vec3<f32>");
}

#[test]
fn each_literal_is_read_by_each_door() {
    for [text, expected] in rows("literals", 49) {
        let file = layouts(format!("enable f16; const a = {text};"));
        assert_eq!(file.errors.is_empty(), expected != "refused", "a file with {text}");
        let tokens = tokens(&text).unwrap();
        let found = match tokens[..] {
            [token] => token.literal_type(&text),
            _ => None,
        };
        assert_eq!(or_refused(found), expected, "{text}");
        assert_eq!(type_of(&text), expected, "type {text}");
    }
}

#[test]
fn what_is_no_type_has_a_place_and_a_cause() {
    for [text, told] in rows("causes", 46) {
        let answer = match text.parse::<Type>() {
            Ok(ty) => ty.to_string(),
            Err(error) => {
                let parts = format!("column {}: {}", error.offset + 1, error.message);
                assert_eq!(error.to_string(), parts);
                parts
            }
        };
        assert_eq!(answer, told, "{text}");
    }
}

#[test]
fn a_count_may_have_calls_and_components() {
    for [count, value] in rows("counts", 54) {
        let text = format!("array<f32, {count}>");
        let expected = if value == "refused" { value } else { format!("array<f32, {value}>") };
        assert_eq!(or_refused(text.parse::<Type>().ok()), expected, "{text}");
    }
}

#[test]
fn the_deepest_type_is_read() {
    let nested = format!("{}f32{}", "array<".repeat(255), ">".repeat(255));
    assert_eq!(nested.parse::<Type>().unwrap().depth(), 256);
}
