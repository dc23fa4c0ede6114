//! The check of modules: each of `tests/modules/modules.txt` is allowed, or refused by the rule that it names. What is `left out`
//! or concerns `uniformity` may be allowed.

use crate::tables::rows;
use wgsl_types_proved::module::{check, Fault};

/// The rules that the grammar keeps, whatever the list calls them.
const BY_GRAMMAR: [&str; 5] = ["behaviour", "switch", "value", "struct", "attribute"];

#[test]
fn modules_are_allowed_or_refused() {
    let rows = rows("modules/modules.txt");
    assert_eq!(rows.len(), 579);
    for [verdict, rule, text] in rows {
        let broken = broken_rules(&text);
        let is_right = match &*verdict {
            "allowed" => broken.is_empty(),
            _ if rule == "left out" || rule == "uniformity" => true,
            _ if broken.contains(&&*rule) => true,
            _ if rule == "syntax" => matches!(broken[..], ["attribute" | "extension"]),
            _ => BY_GRAMMAR.contains(&&*rule) && broken.contains(&"syntax"),
        };
        assert!(is_right, "{verdict} {rule}, but {broken:?}: {text}");
    }
}

/// The rule of each fault.
fn broken_rules(text: &str) -> Vec<&'static str> {
    check(text).faults.iter().map(|fault| fault.rule.word()).collect()
}

/// The rule, the line and the column of each fault, and its message.
fn placed<'f>(text: &str, faults: &'f [Fault]) -> Vec<(String, &'f str)> {
    let place = |fault: &'f Fault| {
        let lines: Vec<&str> = text[..fault.bytes.start].split('\n').collect();
        let column = lines[lines.len() - 1].len() + 1;
        (format!("{} {}:{column}", fault.rule.word(), lines.len()), fault.message.as_str())
    };
    faults.iter().map(place).collect()
}

/// Each text of `tests/modules/messages.txt`, and of two more about attributes and built-in values, has the faults in front of it
/// and no other, with ` | ` between them: the rule, the line, the column and the message.
#[test]
fn faults_have_messages() {
    for name in ["messages", "attributes", "built_ins"] {
        for [wanted, text] in rows(&format!("modules/{name}.txt")) {
            let faults = check(&text).faults;
            let found = placed(&text, &faults).into_iter();
            let found: Vec<_> = found.map(|(at, message)| format!("{at}: {message}")).collect();
            assert_eq!(found.join(" | "), wanted, "{text}");
        }
    }
}

/// A count that an override gives is spelled as it is written.
#[test]
fn counts_of_overrides_are_spelled() {
    let text =
        "override n = 4; var<workgroup> a: array<array<i32, 3>, 2 * n>; fn f() { _ = a[0]; }";
    let checked = check(text);
    let types = checked.parts.iter().filter_map(|part| part.typed.as_ref());
    let spelled: Vec<String> = types.map(|(ty, _)| checked.spelling(ty)).collect();
    let wanted = "ref<workgroup, array<array<i32, 3>, 2 * n>, read_write>";
    assert!(spelled.iter().any(|ty| ty == wanted), "{spelled:?}");
}

/// Shaders as they are written, in `tests/modules/shaders.txt`: the rule, the line and the column of each fault, of some with the
/// message, and the types of some expressions, the last ones of their texts.
#[test]
fn shaders_have_faults_and_types() {
    for [faults, types, text] in rows("modules/shaders.txt") {
        let checked = check(&text);
        let places = placed(&text, &checked.faults);
        let faults: Vec<&str> = faults.split("; ").filter(|fault| !fault.is_empty()).collect();
        assert_eq!(faults.len(), places.len(), "{places:?}: {text}");
        for (fault, (place, message)) in faults.into_iter().zip(places) {
            assert!(fault == place || fault == format!("{place}: {message}"), "{fault}: {text}");
        }
        for expected in types.split("; ").filter(|expected| !expected.is_empty()) {
            let (part, ty) = expected.split_once(" is ").unwrap();
            let part = checked.parts.iter().rfind(|found| &text[found.bytes.clone()] == part);
            let found = part.and_then(|part| part.typed.as_ref()).map(|(ty, _)| ty.to_string());
            assert_eq!(found.as_deref(), Some(ty), "{expected}: {text}");
        }
    }
}

/// Any text is checked: each beginning of each module, and each without its first bytes. None has an expression without a type of
/// which nothing else is told.
#[test]
fn any_text_is_checked() {
    for [_, _, text] in rows("modules/modules.txt") {
        for at in (0..text.len()).step_by(5).filter(|at| text.is_char_boundary(*at)) {
            for part in [&text[..at], &text[at..]] {
                let is_right = |fault: &Fault| {
                    fault.bytes.end <= part.len() && fault.message != "this expression has no type"
                };
                assert!(check(part).faults.iter().all(is_right), "{part}");
            }
        }
    }
}

/// The type and the stage of each expression, in the order in which they are used.
#[test]
fn expressions_have_types() {
    let text = "override o = 1; fn f(v: vec3f) -> f32 { let a = v.x * 2 + f32(o); return a; }";
    let checked = check(text);
    let shown = checked.parts.iter().map(|part| {
        let (ty, stage) = part.typed.as_ref().unwrap();
        format!("{}: {ty} {stage:?}", &text[part.bytes.clone()])
    });
    let expected = "1: AbstractInt Const, v: vec3<f32> Runtime, v.x: f32 Runtime, 2: AbstractInt Const, \
        o: i32 Override, v.x * 2: f32 Runtime, f32(o): f32 Override, v.x * 2 + f32(o): f32 Runtime, a: f32 Runtime";
    assert_eq!(shown.collect::<Vec<_>>().join(", "), expected);
    let bytes = |byte| checked.part_at(byte).map(|part| &text[part.bytes.clone()]);
    let member = text.find("v.x").unwrap();
    assert_eq!([bytes(member), bytes(member + 1), bytes(0)], [Some("v"), Some("v.x"), None]);
}

/// A fault stands at the token that breaks its rule, and what uses what is faulty has none.
#[test]
fn faults_stand_at_their_tokens() {
    for [rule, token, text] in rows("modules/tokens.txt") {
        let faults = check(&text).faults;
        let first = (faults[0].rule.word(), &text[faults[0].bytes.clone()]);
        assert_eq!(first, (&*rule, &*token), "{text}: {faults:?}");
        assert!(faults.len() <= if rule == "cycle" { 2 } else { 1 }, "{text}: {faults:?}");
    }
}

/// Structs that contain each other twice, level by level, take the time of their text.
#[test]
fn structs_do_not_double() {
    let mut text = String::from("struct S0 { a: f32, b: f32 }\n");
    for level in 1..25 {
        text += &format!("struct S{level} {{ a: S{0}, b: S{0} }}\n", level - 1);
    }
    text += "@group(0) @binding(0) var<storage, read_write> v: S24; fn f() { let x = v; v = x; let y: f32 = v.a.b.a.b.a.b.a.b.a.b.a.b.a.b.a.b.a.b.a.b.a.b.a.b.a; }";
    let checked = check(&text);
    assert!(checked.faults.is_empty(), "{:?}", checked.faults);
    let (ty, stage) = checked.parts.last().and_then(|part| part.typed.as_ref()).unwrap();
    assert_eq!(ty.to_string(), "ref<storage, f32, read_write>");
    assert!(!stage.is_const());
}

/// No more than 255 types stand inside one another, structs with those of their members.
#[test]
fn types_are_not_deep() {
    let chain = |count: usize| {
        let mut text = String::from("struct S0 { a: f32 }\n");
        for level in 1..count {
            text += &format!("struct S{level} {{ a: S{} }}\n", level - 1);
        }
        text
    };
    let arrays = |count: usize| {
        format!("var<private> a: {}f32{};", "array<".repeat(count), ", 1>".repeat(count))
    };
    for text in [chain(254), arrays(254)] {
        assert!(broken_rules(&text).is_empty(), "{:?}", check(&text).faults);
    }
    for text in [chain(255), arrays(255)] {
        assert_eq!(broken_rules(&text), ["limit"]);
    }
}
