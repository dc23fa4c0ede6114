//! Which declaration a word refers to, the words that refer to one, and the members of structs.

use super::{Checked, Name};
use crate::proved::wgsl_reader::kind::Kind::{self, *};
use crate::ty::Type;
use alloc::vec::Vec;
use core::ops::Range;

/// A member of a struct of the module, by its declaration.
#[derive(Clone, Debug, PartialEq, Eq)]
#[non_exhaustive]
pub struct Member {
    /// The bytes of its name.
    pub name: Range<usize>,
    /// The bytes of its type.
    pub ty: Range<usize>,
}

impl Checked {
    /// The bytes of the name or the word that a byte is in, or directly behind.
    pub fn word_at(&self, byte: usize) -> Option<Range<usize>> {
        self.bytes_of(self.word_token(byte)?)
    }

    /// The bytes of the name in the declaration to which the word at a byte refers: that of a name of the module or of a function,
    /// or of a member of a struct. In a declaration the name refers to itself.
    pub fn declaration_at(&self, byte: usize) -> Option<Range<usize>> {
        self.declaration_of(self.word_token(byte)?)
    }

    /// The bytes of the words that refer to a declaration, with the name there, in the order of the text.
    pub fn uses_of(&self, declaration: &Range<usize>) -> Vec<Range<usize>> {
        let word = self.text.get(declaration.clone());
        let same = (0..self.tokens.len()).filter(|index| {
            self.kind(*index) == Kind::Name && Some(self.between(*index..*index + 1)) == word
        });
        let uses = same.filter(|index| self.declaration_of(*index).as_ref() == Some(declaration));
        uses.filter_map(|index| self.bytes_of(index)).collect()
    }

    /// The struct of the module with a name.
    pub fn struct_named(&self, name: &str) -> Option<&Name> {
        self.names_with(name).find(|of| self.declared_by(of, &[Struct]).is_some())
    }

    /// The members of a struct of the module; none of another name.
    pub fn members_of(&self, name: &Name) -> Vec<Member> {
        let index = self.declared_by(name, &[Struct]);
        let fields = index.map(|index| self.fields(index + 1).0).unwrap_or_default();
        let member = |(name, ty)| Some(Member { name: self.bytes_of(name)?, ty: self.bytes(&ty)? });
        fields.into_iter().filter_map(member).collect()
    }

    /// The type of the expression in front of a byte, such as that of a `.`; blanks may stand between.
    pub fn type_before(&self, byte: usize) -> Option<&Type> {
        let behind = self.tokens.partition_point(|token| token.at < byte);
        let end = self.bytes_of(behind.checked_sub(1)?)?.end;
        let ended = self.by_end.partition_point(|part| self.parts[*part].bytes.end <= end);
        let part = &self.parts[self.by_end[ended.checked_sub(1)?]];
        part.typed.as_ref().filter(|_| part.bytes.end == end).map(|(ty, _)| ty)
    }

    /// The names with a text, the last ones first.
    fn names_with<'a>(&'a self, text: &str) -> impl Iterator<Item = &'a Name> {
        let start = self.by_text.partition_point(|name| self.names[*name].text.as_str() < text);
        let names = self.by_text[start..].iter().map(|name| &self.names[*name]);
        names.take_while(move |name| name.text == text).collect::<Vec<_>>().into_iter().rev()
    }

    fn bytes_of(&self, index: usize) -> Option<Range<usize>> {
        self.bytes(&(index..index + 1))
    }

    /// The index of the name that a byte is in, or else directly behind.
    fn word_token(&self, byte: usize) -> Option<usize> {
        let behind = self.tokens.partition_point(|token| token.at <= byte);
        let near = (behind.saturating_sub(2)..behind).rev();
        let mut near = near.filter(|index| self.kind(*index) == Kind::Name);
        near.find(|index| self.tokens[*index].at + self.tokens[*index].len >= byte)
    }

    /// The bytes of the name in the declaration to which a word refers.
    fn declaration_of(&self, index: usize) -> Option<Range<usize>> {
        let (word, at) = (self.between(index..index + 1), self.tokens[index].at);
        if self.kind(index.wrapping_sub(1)) == Period {
            let ty = self.type_before(self.tokens[index - 1].at)?;
            let Type::Struct(of) = referred(ty) else { return None };
            let members = self.members_of(self.struct_named(&of.name)?).into_iter();
            return members.map(|of| of.name).find(|of| self.text.get(of.clone()) == Some(word));
        }
        if self.kind(index + 1) == Colon && self.is_member(index) {
            return self.bytes_of(index);
        }
        if self.is_of_context(index) {
            return None;
        }
        let mut names = self.names_with(word);
        names.find(|name| name.is_in_scope(at) || name.is_declared_at(at))?.bytes.clone()
    }

    /// Whether the name in front of a `:` is that of a member, in its declaration.
    fn is_member(&self, index: usize) -> bool {
        let is_end =
            |at: &usize| matches!(self.kind(*at), OpenCurly | CloseCurly | Semicolon | Fn | Struct);
        let open = (0..index).rev().find(is_end);
        open.and_then(|open| open.checked_sub(2)).is_some_and(|at| self.kind(at) == Struct)
    }

    /// Whether a name is one only in its context: an attribute, an argument of some, or in a directive.
    fn is_of_context(&self, index: usize) -> bool {
        let is_listed = |at: &usize| matches!(self.kind(*at), Kind::Name | Comma | Period);
        let first = (0..=index).rev().take_while(is_listed).last().unwrap_or(index);
        let kind = |back: usize| first.checked_sub(back).map_or(End, |at| self.kind(at));
        match kind(1) {
            At => first == index,
            Enable | Requires => true,
            OpenRound if kind(2) == Diagnostic => true,
            OpenRound if kind(3) == At => {
                matches!(self.between(first - 2..first - 1), "builtin" | "interpolate")
            }
            _ => false,
        }
    }
}

/// What a type refers or points to, or the type itself.
fn referred(ty: &Type) -> &Type {
    match ty {
        Type::Ref(_, of, _) | Type::Ptr(_, of, _) => referred(of),
        _ => ty,
    }
}
