//! A document that the client has opened, and what is known of it.

use super::json::Json;
use super::lines::{starts_of_lines, Encoding};
use super::mend::mended;
use std::{cell::OnceCell, ops::Range};
use wgsl_types_proved::module::{check, Checked, Name, Rule};
use wgsl_types_proved::reader::{tokens, Kind, Token};
use wgsl_types_proved::source::{layouts, Layouts, Member};

/// A document.
#[derive(Debug)]
pub struct Document {
    pub uri: String,
    /// As the client counts.
    pub version: Json,
    pub encoding: Encoding,
    /// Where its lines begin.
    pub starts: Vec<usize>,
    /// The text as it is.
    pub written: Module,
    mended: OnceCell<Module>,
}

/// A text, and what is found of it when it is first asked for.
#[derive(Debug, Default)]
pub struct Module {
    pub text: String,
    checked: OnceCell<Checked>,
    tokens: OnceCell<Vec<Token>>,
    layouts: OnceCell<Layouts>,
}

impl Document {
    pub fn new(uri: &str, text: String, version: Json, encoding: Encoding) -> Document {
        let (starts, written) = (starts_of_lines(&text), Module::of(text));
        Document { uri: uri.into(), version, encoding, starts, written, mended: OnceCell::new() }
    }

    /// The document after changes: each a text in place of a range of what is there, or of all. None if one can't be read.
    pub fn changed(&self, changes: &[Json], version: Json) -> Option<Document> {
        let with = |text| Document::new(&self.uri, text, version.clone(), self.encoding);
        let mut last = None;
        for change in changes {
            let before = last.as_ref().unwrap_or(self);
            let mut text = before.written.text.clone();
            let bytes = match &change["range"] {
                Json::Null => 0..text.len(),
                range => before.bytes(range)?,
            };
            text.replace_range(bytes, change["text"].as_text()?);
            last = Some(with(text));
        }
        last.or_else(|| Some(with(self.written.text.clone())))
    }

    pub fn is_readable(&self) -> bool {
        self.written.checked().faults.iter().all(|fault| fault.rule != Rule::Syntax)
    }

    /// The text, or if it isn't readable one that mostly is, with all bytes in their places.
    pub fn module(&self) -> &Module {
        if self.is_readable() {
            return &self.written;
        }
        self.mended.get_or_init(|| Module::of(mended(&self.written.text)))
    }
}

impl Module {
    pub fn of(text: String) -> Module {
        Module { text, ..Module::default() }
    }

    pub fn checked(&self) -> &Checked {
        self.checked.get_or_init(|| check(&self.text))
    }

    pub fn tokens(&self) -> &[Token] {
        self.tokens.get_or_init(|| tokens(&self.text).unwrap_or_default())
    }

    pub fn layouts(&self) -> &Layouts {
        self.layouts.get_or_init(|| layouts(&self.text))
    }

    /// The members that have a layout, with the bytes of their names and of their types.
    pub fn laid_out(&self) -> impl Iterator<Item = (Range<usize>, Range<usize>, &Member)> {
        self.layouts().structs.iter().flat_map(|of| {
            let declared = self.checked().struct_named(&of.name);
            let declared = declared.map(|name| self.checked().members_of(name));
            declared.into_iter().flatten().filter_map(|at| {
                let name = &self.text[at.name.clone()];
                let member = of.members.iter().find(|member| member.name == name)?;
                Some((at.name, at.ty, member))
            })
        })
    }

    /// The names that the module itself declares, in the order of the text.
    pub fn declared(&self) -> Vec<(&Name, Range<usize>)> {
        let names = self.checked().names_at(0).into_iter();
        let mut names: Vec<_> = names.filter_map(|of| Some((of, of.bytes.clone()?))).collect();
        names.sort_by_key(|(_, bytes)| bytes.start);
        names
    }

    pub fn kind(&self, index: usize) -> Kind {
        self.tokens().get(index).map_or(Kind::End, |token| token.kind)
    }

    /// The index of the first token that begins at a byte or behind it.
    pub fn index(&self, byte: usize) -> usize {
        self.tokens().partition_point(|token| token.at < byte)
    }

    /// What declares the name there, up to its `;`, its `,` or its block: `var a: f32 = 1`, `fn f(a: f32) -> f32`, `a: f32`.
    pub fn head(&self, name: &Range<usize>) -> &str {
        let at = self.index(name.start);
        let is_keyword = |index: &usize| begins_declaration(self.kind(*index));
        let start = match self.kind(at.wrapping_sub(1)) {
            Kind::CloseTemplate => (0..at).rev().find(is_keyword).unwrap_or(at),
            kind if begins_declaration(kind) => at - 1,
            _ => at,
        };
        let tokens = self.tokens().get(start..self.end_of_head(at)).unwrap_or_default();
        let (Some(first), Some(last)) = (tokens.first(), tokens.last()) else { return "" };
        &self.text[first.at..last.at + last.len]
    }

    /// The bytes of the declaration of the module that has its name there, with its attributes and its block.
    pub fn declaration(&self, name: &Range<usize>) -> Range<usize> {
        let at = self.index(name.start);
        let is_end = |at: &usize| matches!(self.kind(*at), Kind::Semicolon | Kind::CloseCurly);
        let start = (0..at).rev().find(is_end).map_or(0, |index| index + 1);
        let mut depth = 0;
        let is_last = |token: &&Token| {
            depth += i32::from(token.kind == Kind::OpenCurly);
            depth -= i32::from(token.kind == Kind::CloseCurly);
            depth <= 0
        };
        let last = self.tokens()[self.end_of_head(at)..].iter().find(is_last);
        let end = last.map_or(self.text.len(), |token| token.at + token.len);
        self.tokens().get(start).map_or(name.start, |token| token.at)..end
    }

    /// The index of the token behind the head of a declaration whose name has that index.
    fn end_of_head(&self, name: usize) -> usize {
        use Kind::*;
        let mut depth = 0;
        let is_end = |index: &usize| {
            match self.kind(*index) {
                OpenCurly | Semicolon => return true,
                Comma | CloseRound | CloseTemplate | CloseSquare | CloseCurly if depth == 0 => {
                    return true
                }
                OpenRound | OpenTemplate | OpenSquare => depth += 1,
                CloseRound | CloseTemplate | CloseSquare => depth -= 1,
                _ => {}
            }
            false
        };
        (name + 1..self.tokens().len()).find(is_end).unwrap_or(self.tokens().len())
    }
}

fn begins_declaration(kind: Kind) -> bool {
    use Kind::*;
    matches!(kind, Fn | Struct | Alias | Override | Const | Var | Let)
}
