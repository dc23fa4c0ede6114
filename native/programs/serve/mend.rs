//! Texts that the grammar doesn't read, made readable: what is there keeps its place, so that it has its types.

use std::ops::Range;
use wgsl_types_proved::reader::{read_module, tokens, Kind, Kind::*, Misread, Token};

/// How often a text is read again.
const ROUNDS: usize = 16;

/// The text with blanks in place of what can't be read, and with what is missing there in place of blanks.
pub fn mended(text: &str) -> String {
    let mut mended = without_strange(text);
    for _ in 0..ROUNDS {
        let mut bytes = mended.clone().into_bytes();
        let tokens = tokens(&mended).unwrap_or_default();
        for misread in read_module(&tokens).1 {
            Mending { bytes: &mut bytes, tokens: &tokens, misread }.mend();
        }
        match String::from_utf8(bytes) {
            Ok(changed) if changed != mended => mended = changed,
            _ => break,
        }
    }
    mended
}

/// The text with blanks in place of characters that begin no token, and of the beginning of a comment that isn't closed.
pub fn without_strange(text: &str) -> String {
    let mut text = text.to_string();
    for _ in 0..ROUNDS {
        let Err(at) = tokens(&text) else { break };
        let letter = text[at..].chars().next().map_or(0, char::len_utf8);
        let len = if text[at..].starts_with("/*") { 2 } else { letter };
        text.replace_range(at..at + len, &" ".repeat(len));
    }
    text
}

/// The text with a word in place of its bytes, and behind it room for what is missing there.
pub fn with_word(text: &str, bytes: Range<usize>, word: &str) -> String {
    format!("{}{word}{}{}", &text[..bytes.start], " ".repeat(32), &text[bytes.end..])
}

/// A declaration that can't be read, of these tokens and bytes.
struct Mending<'a> {
    bytes: &'a mut Vec<u8>,
    tokens: &'a [Token],
    misread: Misread,
}

impl Mending<'_> {
    fn kind(&self, index: usize) -> Kind {
        self.tokens.get(index).map_or(End, |token| token.kind)
    }

    fn kinds(&self, tokens: Range<usize>) -> Vec<Kind> {
        tokens.map(|index| self.kind(index)).collect()
    }

    fn mend(&mut self) {
        let Misread { from, at, .. } = self.misread;
        let front = self.kinds(from..at);
        let count = |kind| front.iter().filter(|of| **of == kind).count();
        let depth = count(OpenCurly).saturating_sub(count(CloseCurly));
        let word = front.iter().copied().find(|kind| begins_declaration(*kind)).unwrap_or(End);
        if word == Fn && depth == 0 {
            return;
        }
        let separator = if word == Struct { Comma } else { Semicolon };
        let segment = self.segment(separator);
        let ends = [Some(&separator), Some(&OpenCurly), Some(&CloseCurly), None];
        let is_mended = if !ends.contains(&front.last()) {
            let missing = closing(&self.kinds(segment.start..at), depth, self.kind(at));
            self.insert(if word == Struct { "," } else { &missing })
        } else if depth > 0 && matches!(self.kind(at), End | At | Fn | Struct | Alias | Override) {
            self.insert("}")
        } else {
            false
        };
        if !is_mended {
            self.blank(segment);
        }
    }

    /// Writes a text over the blanks behind the last token that can be read, if there is room.
    fn insert(&mut self, text: &str) -> bool {
        let last = self.misread.at.checked_sub(1).map(|last| self.tokens[last]);
        let Some(last) = last.filter(|_| !text.is_empty()) else { return false };
        let start = last.at + last.len;
        let has_room = |room: &[u8]| room.iter().all(u8::is_ascii_whitespace);
        if self.bytes.get(start..start + text.len()).is_some_and(has_room) {
            self.bytes[start..start + text.len()].copy_from_slice(text.as_bytes());
        } else if self.misread.at == self.tokens.len() {
            self.bytes.extend(format!("\n{text}").bytes());
        } else {
            return false;
        }
        true
    }

    /// The statement or the member that can't be read.
    fn segment(&self, separator: Kind) -> Range<usize> {
        let Misread { from, at, .. } = self.misread;
        let (mut start, mut depth) = (from, 0);
        for index in from..self.tokens.len() {
            let kind = self.kind(index);
            let is_counted =
                separator == Comma || depth > 0 || self.kind(index.wrapping_sub(1)) == For;
            match kind {
                OpenRound | OpenTemplate if is_counted => depth += 1,
                CloseRound | CloseTemplate if depth > 0 => depth -= 1,
                _ => {}
            }
            let is_curly = matches!(kind, OpenCurly | CloseCurly);
            let is_end = is_curly || kind == separator && depth == 0;
            if index >= at && (is_end || index > start && begins_statement(kind)) {
                let is_stray = kind == CloseCurly && index == from;
                return start..index + usize::from(!is_curly && is_end || is_stray);
            }
            if is_end {
                (start, depth) = (index + 1, 0);
            }
        }
        start..self.tokens.len()
    }

    fn blank(&mut self, tokens: Range<usize>) {
        for token in &self.tokens[tokens] {
            self.bytes[token.at..token.at + token.len].fill(b' ');
        }
    }
}

fn begins_declaration(kind: Kind) -> bool {
    matches!(kind, Fn | Struct | Alias | Override | Var | Const | ConstAssert)
}

fn begins_statement(kind: Kind) -> bool {
    begins_declaration(kind)
        || matches!(kind, Let | Return | If | For | While | Loop | Switch | Break | Continue)
}

/// What closes the brackets of a statement in a block, or of a declaration outside of blocks, and ends it in front of a token.
fn closing(kinds: &[Kind], depth: usize, behind: Kind) -> String {
    let mut open = Vec::new();
    for (index, kind) in kinds.iter().enumerate() {
        match kind {
            OpenRound => open.push((index, ")")),
            OpenSquare => open.push((index, "]")),
            OpenTemplate => open.push((index, ">")),
            CloseRound | CloseSquare | CloseTemplate => _ = open.pop(),
            _ => {}
        }
    }
    let mut closing = String::new();
    for (at, bracket) in open.into_iter().rev() {
        if at > 0 && kinds[at - 1] == For {
            let count = kinds[at..].iter().filter(|kind| **kind == Semicolon).count();
            closing += &";".repeat(2_usize.saturating_sub(count));
        }
        closing += bracket;
    }
    let is_assigned = kinds.iter().any(|kind| matches!(kind, Equal | OperatorEqual));
    closing
        + match kinds.first() {
            _ if behind == OpenCurly => "",
            Some(If | Else | While | For) => "{}",
            Some(Switch) => "{default{}}",
            Some(Case) => ":{}",
            Some(Name) if kinds.get(1) == Some(&OpenRound) || is_assigned || depth == 0 => ";",
            Some(Name | OpenRound | Star | And) if !is_assigned => "=0;",
            _ => ";",
        }
}
