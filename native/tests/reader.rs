//! WGSL's grammar: each text of `tests/grammar/texts.txt` is read or refused as it says, each of `tokens.txt` has the tokens and
//! each of `events.txt` the events there; no word of `kept_words.txt` is a name.

use crate::tables::rows;
use wgsl_types_proved::reader::{
    expected_at, meant_at, read, read_module, tokens, Kind, Misread, Rule,
};

fn is_read(text: &str) -> bool {
    tokens(text).is_ok_and(|tokens| read_module(&tokens).1.is_empty())
}

#[test]
fn texts_are_read_or_refused() {
    let rows = rows::<2>("grammar/texts.txt");
    assert!(rows.len() > 2500);
    rows.iter().for_each(|[verdict, text]| assert_eq!(is_read(text), verdict == "read", "{text}"));
}

/// `Name@2`: noted behind two tokens. `Declaration:0-3`: one from the first token on, misread at the fourth.
#[test]
fn events_are_noted() {
    for [text, expected] in rows("grammar/events.txt") {
        let (events, misread) = read_module(&tokens(&text).unwrap());
        let events = events.iter().map(|event| format!("{:?}@{}", event.mark, event.at));
        let misread = misread.iter().map(|m| format!("{:?}:{}-{}", m.rule, m.from, m.at));
        assert_eq!(events.chain(misread).collect::<Vec<_>>().join(" "), expected, "{text}");
    }
}

/// `const` and a type, as in requests, which no text of WGSL has.
#[test]
fn constant_operands_are_read() {
    let marks = |text: &str| {
        let mut tokens = tokens(text).unwrap();
        for token in tokens.iter_mut().filter(|token| token.kind == Kind::Const) {
            token.kind = Kind::ConstOperand;
        }
        let events = read(Rule::Expression, &tokens)?;
        let marks: Vec<_> = events.iter().map(|event| format!("{:?}", event.mark)).collect();
        Ok(marks.join(" "))
    };
    assert_eq!(marks("const i32"), Ok("Name Constant".to_string()));
    assert_eq!(
        marks("-const a<b>.x[1] * const c"),
        Ok("Operator Name OpenTemplate Name Value Template Constant MemberOf OpenElement Literal \
            Element Unary Operator Name Constant Binary"
            .to_string())
    );
    for (text, at) in [("const", 1), ("const 1", 1), ("const(a)", 1), ("const a(b)", 2)] {
        assert_eq!(marks(text), Err(at), "{text}");
    }
}

#[test]
fn kept_words_are_no_names() {
    let kept = std::fs::read_to_string("tests/grammar/kept_words.txt").unwrap();
    for word in kept.split_whitespace().chain(["_", "__", "__a", "__é"]) {
        for text in ["const # = 1;", "struct S { #: f32 }", "fn #() {}", "const a = b.#;"] {
            assert!(!is_read(&text.replace('#', word)), "{text} with {word}");
            assert!(is_read(&text.replace('#', &format!("{word}1"))) != word.starts_with("__"));
        }
    }
    for name in ["ref", "_a", "a__", "Ref", "nulL", "f32", "é", "𝔞", "a\u{301}"] {
        assert!(is_read(&format!("const {name} = 1;")), "{name}");
    }
}

#[test]
fn texts_have_tokens() {
    for [text, expected] in rows("grammar/tokens.txt") {
        let found = tokens(&text).map(|tokens| {
            let told = tokens.iter().map(|of| format!("{:?}:{}", of.kind, of.text(&text)));
            told.collect::<Vec<_>>().join(" ")
        });
        assert_eq!(found.unwrap_or_else(|at| format!("byte {at}")), expected, "{text:?}");
    }
}

#[test]
fn nested_texts_end() {
    const DEPTH: usize = 100_000;
    let nested = |open: &str, inner: &str, close: &str| {
        format!("{}{inner}{}", open.repeat(DEPTH), close.repeat(DEPTH))
    };
    for (open, close) in [("(", ")"), ("f(", ")"), ("a[", "]"), ("a<", ">"), ("-", ""), ("a+", "")]
    {
        let text = nested(open, "b", close);
        assert!(read(Rule::Expression, &tokens(&text).unwrap()).is_ok(), "{open}");
    }
    assert!(is_read(&format!("fn f() {}", nested("{", "", "}"))));
    assert!(!is_read(&format!("const a = {}", nested("(", "b;", ")"))));
    assert!(!is_read(&"fn f() { ".repeat(DEPTH)));
}

#[test]
fn what_may_stand_is_said() {
    for [text, message] in rows("grammar/expected.txt") {
        let tokens = tokens(&text).unwrap();
        let misread = read_module(&tokens).1;
        assert_eq!((misread.len(), expected_at(&misread[0], &tokens)), (1, message), "{text}");
    }
}

#[test]
fn misspelled_keywords_are_told() {
    for [text, word, keyword] in rows("grammar/misspelled.txt") {
        let tokens = tokens(&text).unwrap();
        let found = meant_at(&read_module(&tokens).1[0], &tokens, &text);
        let told = found.map_or(("-", "-"), |(index, meant)| (tokens[index].text(&text), meant));
        assert_eq!(told, (&*word, &*keyword), "{text}");
    }
    let text = "dicsard;";
    let rows = [(0, 1, Some((0, "discard"))), (0, 9, None), (9, 0, None), (1, 0, None)];
    for (from, at, meant) in rows {
        let misread = Misread { rule: Rule::Statement, from, at };
        assert_eq!(meant_at(&misread, &tokens(text).unwrap(), text), meant);
    }
}
