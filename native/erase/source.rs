//! A source and its edits: its tokens, which brackets match, and what is left out or inserted.

use crate::token::{tokens, Kind, Token};
use std::fmt;

/// What can't be erased, and where.
#[derive(Debug)]
pub struct Refusal {
    pub file: String,
    pub line: usize,
    pub why: String,
}

impl Refusal {
    fn new(file: &str, text: &str, at: usize, why: impl Into<String>) -> Refusal {
        let line = 1 + text[..at].matches('\n').count();
        Refusal { file: file.to_string(), line, why: why.into() }
    }
}

impl fmt::Display for Refusal {
    fn fmt(&self, f: &mut fmt::Formatter<'_>) -> fmt::Result {
        write!(f, "{}:{}: {}", self.file, self.line, self.why)
    }
}

/// The bytes from `start` to `end` become `text`.
struct Edit {
    start: usize,
    end: usize,
    text: String,
}

/// A source, and its edits so far.
pub struct Source<'s> {
    /// The path, for refusals.
    file: &'s str,
    text: &'s str,
    /// All tokens but comments.
    tokens: Vec<Token<'s>>,
    comments: Vec<Token<'s>>,
    /// For each bracket, the index of its match.
    partners: Vec<Option<usize>>,
    edits: Vec<Edit>,
}

impl<'s> Source<'s> {
    /// Reads a source.
    pub fn new(file: &'s str, text: &'s str) -> Result<Source<'s>, Refusal> {
        let refuse = |at: usize, why: &str| Refusal::new(file, text, at, why);
        let all = tokens(text).map_err(|at| refuse(at, "what begins here doesn't end"))?;
        let (comments, tokens): (Vec<_>, Vec<_>) =
            all.into_iter().partition(|token| token.kind == Kind::Comment);
        let partners = partners(&tokens)
            .map_err(|at| refuse(tokens[at].start, "a bracket without its other"))?;
        Ok(Source { file, text, tokens, comments, partners, edits: Vec::new() })
    }

    /// How many tokens there are.
    pub fn len(&self) -> usize {
        self.tokens.len()
    }

    /// The text of a token, and "" where there is none.
    pub fn at(&self, index: usize) -> &'s str {
        self.tokens.get(index).map_or("", |token| token.text)
    }

    /// The text of the token that is `count` before `index`.
    pub fn before(&self, index: usize, count: usize) -> &'s str {
        index.checked_sub(count).map_or("", |index| self.at(index))
    }

    /// Whether a token is a name or a keyword.
    pub fn is_word(&self, index: usize) -> bool {
        self.tokens.get(index).is_some_and(|token| token.kind == Kind::Word)
    }

    /// Whether these tokens follow from an index on.
    pub fn has(&self, index: usize, texts: &[&str]) -> bool {
        texts.iter().enumerate().all(|(ahead, text)| self.at(index + ahead) == *text)
    }

    /// The index of the match of a bracket.
    pub fn partner(&self, index: usize) -> Option<usize> {
        self.partners.get(index).copied().flatten()
    }

    /// The index after a token, or after the matching bracket if it is an opening one.
    pub fn behind(&self, index: usize) -> usize {
        self.partner(index).filter(|close| *close > index).unwrap_or(index) + 1
    }

    /// The first index from `index` on that has one of the texts, outside of brackets that open on the way.
    pub fn find(&self, mut index: usize, texts: &[&str]) -> Option<usize> {
        while index < self.len() {
            if texts.contains(&self.at(index)) {
                return Some(index);
            }
            index = self.behind(index);
        }
        None
    }

    /// Refuses the construct at an index.
    pub fn refuse(&self, index: usize, why: impl Into<String>) -> Refusal {
        let start = self.tokens.get(index).map_or(self.text.len(), |token| token.start);
        Refusal::new(self.file, self.text, start, why)
    }

    /// Replaces the tokens from `first` to `last`.
    pub fn put(&mut self, first: usize, last: usize, text: impl Into<String>) {
        let (start, end) = (self.tokens[first].start, self.tokens[last].end());
        self.edits.push(Edit { start, end, text: text.into() });
    }

    /// Leaves out the tokens from `first` to `last`, and their lines if nothing else is on them.
    pub fn leave_out(&mut self, first: usize, last: usize) {
        let (start, end) = (self.tokens[first].start, self.tokens[last].end());
        let before = self.text[..start].trim_end_matches([' ', '\t']);
        let behind = self.text[end..].trim_start_matches([' ', '\t']);
        let is_alone = before.is_empty() || before.ends_with('\n');
        let (start, end) = match behind.strip_prefix('\n') {
            Some(rest) if is_alone => (before.len(), self.text.len() - rest.len()),
            _ => (start, end),
        };
        self.edits.push(Edit { start, end, text: String::new() });
    }

    /// Leaves out the comments right above a token's line, without an empty line between. The comments at the beginning
    /// of the file stay, since they are about the file.
    pub fn leave_out_comments_above(&mut self, index: usize) {
        let end = self.line_start(self.tokens[index].start);
        let mut start = end;
        for comment in self.comments.iter().rev().filter(|comment| comment.start < end) {
            let line = self.line_start(comment.start);
            let is_alone = self.text[line..comment.start].trim().is_empty();
            if !is_alone || comment.end() + 1 != start {
                break;
            }
            start = line;
        }
        if 0 < start && start < end {
            self.edits.push(Edit { start, end, text: String::new() });
        }
    }

    fn line_start(&self, at: usize) -> usize {
        self.text[..at].rfind('\n').map_or(0, |feed| feed + 1)
    }

    /// Inserts a line in front of the first item, after the comments and attributes of the file.
    pub fn put_first(&mut self, line: &str) {
        let mut index = 0;
        while self.has(index, &["#", "!"]) {
            index = self.behind(index + 2);
        }
        let first = self.tokens.get(index).map_or(self.text.len(), |token| token.start);
        let mut start = self.line_start(first);
        for comment in self.comments.iter().rev().filter(|comment| comment.start < first) {
            if !comment.text.starts_with("///") {
                break;
            }
            start = self.line_start(comment.start);
        }
        self.edits.push(Edit { start, end: start, text: format!("{line}\n") });
    }

    /// The text with its edits, no two of which may be at the same place.
    pub fn edited(mut self) -> Result<String, Refusal> {
        self.edits.sort_by_key(|edit| (edit.start, edit.end));
        let (mut made, mut at) = (String::new(), 0);
        for edit in &self.edits {
            if edit.start < at {
                return Err(Refusal::new(
                    self.file,
                    self.text,
                    edit.start,
                    "two rules at one place",
                ));
            }
            made.push_str(&self.text[at..edit.start]);
            made.push_str(&edit.text);
            at = edit.end;
        }
        made.push_str(&self.text[at..]);
        Ok(made)
    }
}

/// For each bracket, the index of its match. Err has the index of a bracket without one.
fn partners(tokens: &[Token<'_>]) -> Result<Vec<Option<usize>>, usize> {
    let (mut partners, mut open) = (vec![None; tokens.len()], Vec::new());
    for (index, token) in tokens.iter().enumerate() {
        match token.text {
            "(" | "[" | "{" => open.push(index),
            ")" | "]" | "}" => {
                let other = open.pop().ok_or(index)?;
                if !matches!((tokens[other].text, token.text), ("(", ")") | ("[", "]") | ("{", "}"))
                {
                    return Err(index);
                }
                partners[index] = Some(other);
                partners[other] = Some(index);
            }
            _ => {}
        }
    }
    open.pop().map_or(Ok(partners), Err)
}
