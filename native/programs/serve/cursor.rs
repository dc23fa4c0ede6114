//! A word at a cursor, and the brackets around it.

use wgsl_types_proved::reader::{Kind, Kind::*, Token};

/// What the innermost bracket around a cursor encloses.
#[derive(Clone, Copy, PartialEq, Eq)]
pub enum Around {
    Module,
    /// What is between the parameters of a function and its block.
    Header,
    Parameters,
    Members,
    Block,
    /// The clauses of a `switch`.
    Clauses,
    Template,
    /// The arguments of the attribute whose name has this index.
    Attribute(usize),
    Expression,
}

/// A word at a cursor, with the tokens around it.
pub struct Cursor {
    tokens: Vec<Token>,
    at: usize,
    pub around: Around,
}

impl Cursor {
    /// The cursor at the token that begins at a byte; None if there is none, as in a comment.
    pub fn of(tokens: Vec<Token>, byte: usize) -> Option<Cursor> {
        let at = tokens.binary_search_by_key(&byte, |token| token.at).ok()?;
        let mut cursor = Cursor { tokens, at, around: Around::Module };
        cursor.around = cursor.innermost();
        Some(cursor)
    }

    /// The kind of the token this many in front of the cursor.
    pub fn back(&self, count: usize) -> Kind {
        self.kind(self.at.wrapping_sub(count))
    }

    /// Its text.
    pub fn text_back<'t>(&self, count: usize, text: &'t str) -> &'t str {
        let token = self.at.checked_sub(count).map(|index| self.tokens[index]);
        token.map_or("", |token| token.text(text))
    }

    /// The kind of the token in front of the names and the commas in front of the cursor.
    pub fn listed(&self) -> Kind {
        let mut front = (0..self.at).rev().map(|index| self.kind(index));
        front.find(|kind| !matches!(kind, Name | Comma)).unwrap_or(End)
    }

    fn kind(&self, index: usize) -> Kind {
        self.tokens.get(index).map_or(End, |token| token.kind)
    }

    fn innermost(&self) -> Around {
        let (mut depth, mut has_ended) = (0, false);
        for index in (0..self.at).rev() {
            match self.kind(index) {
                CloseRound | CloseSquare | CloseTemplate | CloseCurly => {
                    has_ended |= depth == 0 && self.kind(index) == CloseCurly;
                    depth += 1;
                }
                OpenRound | OpenSquare | OpenTemplate | OpenCurly if depth > 0 => depth -= 1,
                OpenRound | OpenSquare | OpenTemplate | OpenCurly => return self.opened(index),
                Semicolon => has_ended |= depth == 0,
                Fn if depth == 0 && !has_ended => return Around::Header,
                _ => {}
            }
        }
        Around::Module
    }

    /// What an open bracket encloses.
    fn opened(&self, open: usize) -> Around {
        let before = |count| self.kind(open.wrapping_sub(count));
        match (self.kind(open), before(1), before(2)) {
            (OpenTemplate, ..) => Around::Template,
            (OpenRound, Name, Fn) => Around::Parameters,
            (OpenRound, Name, At) => Around::Attribute(open - 1),
            (OpenCurly, Name, Struct) => Around::Members,
            (OpenCurly, ..) if self.is_of_switch(open) => Around::Clauses,
            (OpenCurly, ..) => Around::Block,
            _ => Around::Expression,
        }
    }

    /// Whether a `{` belongs to a `switch`.
    fn is_of_switch(&self, open: usize) -> bool {
        let front = (0..open).rev().map(|index| self.kind(index));
        let mut front = front.take_while(|of| !matches!(of, Semicolon | OpenCurly | CloseCurly));
        front.any(|kind| kind == Switch)
    }
}
