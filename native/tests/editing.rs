//! What an editor asks of a checked module.

use crate::tables::rows;
use std::ops::Range;
use wgsl_types_proved::module::{check, check_in, Meaning, Stage};
use wgsl_types_proved::ty::StructType;
use wgsl_types_proved::Type;

/// The bytes between the `‹` and the `›` of a text, and the text without them.
fn marked(text: &str) -> (Range<usize>, String) {
    let start = text.find('‹').unwrap();
    let end = text.find('›').unwrap() - '‹'.len_utf8();
    (start..end, text.replace(['‹', '›'], ""))
}

/// A fault has the place of the other declaration.
#[test]
fn faults_refer_to_declarations() {
    for [text] in rows("modules/declarations.txt") {
        let (bytes, text) = marked(&text);
        let faults = check(&text).faults;
        let notes: Vec<_> = faults.iter().flat_map(|fault| &fault.notes).collect();
        assert!(matches!(faults[0].rule.word(), "duplicate" | "cycle"), "{text}: {faults:?}");
        assert_eq!(notes.len(), 1, "{text}: {faults:?}");
        assert_eq!(notes[0].bytes, bytes, "{text}: {faults:?}");
        let name = &text[bytes];
        assert_eq!(notes[0].message, format!("`{name}` is declared here"), "{text}");
    }
}

/// A fault has the nearest overloads, and no more than eight.
#[test]
fn faults_explain_overloads() {
    for [text, count, nearest] in rows("modules/overloads.txt") {
        let [fault] = &check(&text).faults[..] else { panic!("{text}") };
        assert_eq!(fault.notes.len().to_string(), count, "{text}: {fault:?}");
        let first = fault.notes.first().map_or("", |note| &note.message);
        assert!(first.starts_with(&nearest), "{text}: {first}");
        assert!(fault.notes.iter().all(|note| note.bytes == fault.bytes), "{text}");
    }
}

/// A declaration without a type has one. Members have no scope.
#[test]
fn types_are_inferred() {
    let text = "const a = 1; override b = 2; var<private> c = vec3(1.5); const d: i32 = 1; alias e = i32; var<private> f: i32;
        fn g(h: i32) { let i = h; var j = a; const k: i32 = 1; let l = &j; let m = foo; for (var n = 1u; n < 2; n++) { } }
        struct o { p: i32 }";
    let checked = check(text);
    let inferred = checked.names.iter().filter_map(|of| Some((&*of.text, of.inferred_type()?)));
    let inferred: Vec<String> = inferred.map(|(name, ty)| format!("{name}: {ty}")).collect();
    let expected = "a: AbstractInt, b: i32, c: vec3<f32>, i: i32, j: i32, l: ptr<function, i32, read_write>, n: u32";
    assert_eq!(inferred.join(", "), expected);
    let named: Vec<&str> = checked.names.iter().map(|name| &*name.text).collect();
    assert_eq!(named.join(" "), "a b c d e f g o h i j k l m n");
}

fn names_at(text: &str) -> String {
    let at = text.find('‸').unwrap();
    let checked = check(&text.replace('‸', ""));
    let names = checked.names_at(at).into_iter().map(|name| match &name.meaning {
        Meaning::Value(ty, Stage::Runtime) => format!("{}: {ty}", name.text),
        Meaning::Value(ty, stage) => format!("{}: {ty} {stage:?}", name.text),
        Meaning::Type(ty) => format!("{} = {ty}", name.text),
        Meaning::Function => format!("{}()", name.text),
        _ => format!("{}?", name.text),
    });
    names.collect::<Vec<_>>().join(", ")
}

/// The names of the module, and of a function those that are declared in front.
#[test]
fn names_are_in_scope() {
    for [text, names] in rows("modules/names.txt") {
        assert_eq!(names_at(&text), names.trim_matches('-'), "{text}");
    }
}

/// The call around a byte, with the parameter and the overload that fits in brackets.
fn signature_at(text: &str) -> String {
    let at = text.find('‸').unwrap();
    let checked = check(&text.replace('‸', ""));
    let Some(call) = checked.signature_at(at) else { return "-".into() };
    let Some(fitting) = call.fitting else { return format!("none of {}", call.overloads.len()) };
    let overload = &call.overloads[fitting];
    let Some(at) = overload.parameters().get(call.argument).cloned() else {
        return overload.text.clone();
    };
    let text = &overload.text;
    format!("{}[{}]{}", &text[..at.start], &text[at.clone()], &text[at.end..])
}

#[test]
fn calls_have_signatures() {
    for [text, signature] in rows("modules/signatures.txt") {
        assert_eq!(signature_at(&text), signature, "{text}");
    }
}

/// A host declares names, which the module and its functions may declare too.
#[test]
fn a_host_declares_names() {
    let ty = |text: &str| text.parse::<Type>().unwrap();
    let light = Type::from(StructType::new("Light", [("color", ty("vec3f"))]));
    let host = [
        ("time", Meaning::Value(Type::F32, Stage::Runtime)),
        ("count", Meaning::Value(Type::U32, Stage::Const)),
        ("scale", Meaning::Value(Type::F32, Stage::Override)),
        ("tile", Meaning::Value(ty("ref<workgroup, mat4x4<f32>, read_write>"), Stage::Runtime)),
        ("Light", Meaning::Type(light.clone())),
        ("light", Meaning::Value(light, Stage::Runtime)),
        ("Color", Meaning::Type(ty("vec3f"))),
        ("noise", Meaning::Function),
        ("other", Meaning::Unknown),
        ("time", Meaning::Unknown),
    ];
    for [text, rules] in rows("modules/host.txt") {
        let checked = check_in(&host, &text);
        let found: Vec<_> = checked.faults.iter().map(|fault| fault.rule.word()).collect();
        assert_eq!(found.join(" "), rules.trim_matches('-'), "{text}: {:?}", checked.faults);
    }
    let checked = check_in(&host, "const time = 1; fn f() { let a = Color( 1); }");
    let names: Vec<_> =
        checked.names_at(39).into_iter().map(|name| (&*name.text, name.bytes.clone())).collect();
    assert_eq!(names[..3], [("f", Some(19..20)), ("time", Some(6..10)), ("count", None)]);
    assert_eq!(checked.signature_at(39).unwrap().overloads.len(), 6);
    let inferred = checked.names.iter().find_map(|name| name.inferred_type());
    assert_eq!(inferred, Some(&Type::AbstractInt));
    let checked = check_in(&host, "struct Light { a: u32 } const a = Light(1);");
    let time = checked.names_at(0).into_iter().find(|name| name.text == "time");
    assert!(matches!(time.unwrap().meaning, Meaning::Value(..)));
    assert_eq!(checked.signature_at(40).unwrap().overloads[0].text, "Light(a: u32)");
}

/// Names are in scope where the check finds them, and any place of any text may be asked.
#[test]
fn scopes_are_those_of_the_check() {
    let mut count = 0;
    for [_, _, text] in rows("modules/modules.txt") {
        let checked = check(&text);
        for part in &checked.parts {
            let Some(declared) = part.declared else { continue };
            let word = text[part.bytes.clone()].trim_matches(['(', ')', ' ']);
            let names = checked.names_at(part.bytes.start);
            let name = names.into_iter().find(|name| name.text == word).unwrap();
            let start = name.bytes.as_ref().map(|bytes| bytes.start);
            assert_eq!(start, Some(declared), "{word}: {text}");
            count += 1;
        }
        for end in (0..text.len()).filter(|end| text.is_char_boundary(*end)).step_by(11) {
            let checked = check(&text[..end]);
            checked.names_at(end);
            checked.signature_at(end);
        }
    }
    assert!(count > 300, "{count}");
}
