//! WGSL files are read by WGSL's grammar: what it refuses is an error where it stops, and there is no other error of that kind.

use crate::{random::Random, tables::rows};
use wgsl_types_proved::reader::{expected_at, read_module, tokens, Kind, Misread, Token};
use wgsl_types_proved::source::layouts;

/// A place, by its line and column, and what is wrong there.
type Told = ((usize, usize), String);

/// The line and the column of a byte, from 1.
fn place(text: &str, at: usize) -> (usize, usize) {
    let (mut line, mut start) = (1, 0);
    let mut letters = text[..at].char_indices().peekable();
    while let Some((index, letter)) = letters.next() {
        let is_pair = letter == '\r' && letters.peek().is_some_and(|next| next.1 == '\n');
        if "\n\u{b}\u{c}\r\u{85}\u{2028}\u{2029}".contains(letter) && !is_pair {
            (line, start) = (line + 1, index + letter.len_utf8());
        }
    }
    (line, at - start + 1)
}

/// What is wrong with a declaration of a text that can't be read.
fn told(text: &str, tokens: &[Token], misread: &Misread) -> Told {
    let expected = expected_at(misread, tokens);
    let Some(token) = tokens.get(misread.at) else {
        return (place(text, text.len()), format!("{expected}, found the end"));
    };
    let word = token.text(text);
    let is_directive = matches!(token.kind, Kind::Enable | Kind::Requires | Kind::Diagnostic);
    let what = if is_directive && misread.at == misread.from {
        format!("a directive stands in front of all declarations: `{word}`")
    } else if token.kind == Kind::Less && expected.contains("`<`") && !expected.contains("`.`") {
        "this list has no `>`".to_string()
    } else {
        format!("{expected}, found `{word}`")
    };
    (place(text, token.at), what)
}

/// The errors of a file that are about its grammar, without the hints behind what is found.
fn told_of_file(text: &str) -> Vec<Told> {
    let mut errors = layouts(text).errors;
    errors.retain(|error| {
        ["Misread", "LateDirective", "Strange", "OpenComment"].contains(&&*error.kind)
    });
    let parted = errors.into_iter().map(|error| {
        let what = match error.text.find("`; ") {
            Some(end) => error.text[..=end].to_string(),
            None => error.text,
        };
        ((error.start.line, error.start.column), what)
    });
    parted.collect()
}

/// Whether a file has the errors that the grammar gives. Where no token begins is an error too, unless one stands in front.
fn agrees(text: &str) -> bool {
    let found = told_of_file(text);
    match tokens(text) {
        Ok(tokens) => {
            let misread = read_module(&tokens).1;
            found == misread.iter().map(|of| told(text, &tokens, of)).collect::<Vec<_>>()
        }
        Err(at) => found.first().is_some_and(|first| first.0 <= place(text, at)),
    }
}

fn check(texts: impl IntoIterator<Item = String>) {
    texts.into_iter().for_each(|text| assert!(agrees(&text), "{text}: {:?}", told_of_file(&text)));
}

/// So a text has errors if the grammar refuses it, as `reader` tests of each.
#[test]
fn errors_stand_where_the_grammar_stops() {
    check(rows("grammar/texts.txt").into_iter().map(|[_, text]| text));
    check(rows("grammar/events.txt").into_iter().map(|[text, _]| text));
    check(["const a = 1; // $\nalias /* # */ T = f32; /* /* */", "const a = $;"].map(String::from));
}

/// The files that `wgsl layout` is tested with.
fn files() -> Vec<String> {
    let entries = std::fs::read_dir("tests/sourced").unwrap().map(|entry| entry.unwrap().path());
    let mut paths: Vec<_> =
        entries.filter(|path| path.extension().is_some_and(|end| end == "wgsl")).collect();
    paths.sort();
    paths.iter().map(|path| std::fs::read_to_string(path).unwrap()).collect()
}

/// The text with a token less, twice, or in place of another.
fn changed(random: &mut Random, text: &str, tokens: &[Token]) -> String {
    let [token, other] = [(); 2].map(|()| tokens[random.number(tokens.len())]);
    let (front, behind) = (&text[..token.at], &text[token.at + token.len..]);
    match random.number(3) {
        0 => front.to_string() + behind,
        1 => format!("{front}{} {0}{behind}", token.text(text)),
        _ => format!("{front}{}{behind}", other.text(text)),
    }
}

#[test]
fn changed_files_are_read_by_the_grammar() {
    let mut random = Random::new(77);
    for file in files() {
        let tokens = tokens(&file).unwrap();
        check((0..60).map(|_| changed(&mut random, &file, &tokens)));
        check([file]);
    }
}
