//! The names of a module: what they stand for, and where.

use super::{Checked, Rule, Stage};
use crate::proved::wgsl_module::module::Checked as Found;
use crate::proved::wgsl_reader::{kind::Kind, token::Token};
use crate::proved::wgsl_standard::operand::loaded;
use crate::proved::wgsl_typing::known::{Known, Typed};
use crate::ty::Type;
use alloc::collections::{BTreeMap, BTreeSet};
use alloc::string::String;
use alloc::vec::Vec;
use core::ops::Range;

/// What a name stands for.
#[derive(Clone, Debug)]
#[non_exhaustive]
pub enum Meaning {
    /// A value; a variable has the type of a reference.
    Value(Type, Stage),
    /// A type. Of a struct of the module it has the name; [`types`](crate::source::types) has the members.
    Type(Type),
    /// A function. If a host gives it, its calls have no type.
    Function,
    /// What isn't known: its declaration has a fault. Who uses it has none.
    Unknown,
}

/// A name, by its declaration.
#[derive(Clone, Debug)]
#[non_exhaustive]
pub struct Name {
    /// The name.
    pub text: String,
    /// Its bytes in its declaration; None if the host gives it.
    pub bytes: Option<Range<usize>>,
    /// What it stands for.
    pub meaning: Meaning,
    is_inferred: bool,
    /// The first and the last byte where it stands for that.
    scope: (usize, usize),
}

impl Name {
    /// The type of a `let`, `var`, `const` or `override` that says none; of a variable that of its value.
    pub fn inferred_type(&self) -> Option<&Type> {
        match &self.meaning {
            Meaning::Value(ty, _) if self.is_inferred => Some(loaded(ty)),
            _ => None,
        }
    }

    /// Whether it stands for that at a byte, unless another name hides it.
    pub(super) fn is_in_scope(&self, byte: usize) -> bool {
        self.scope.0 <= byte && byte <= self.scope.1
    }

    /// Whether its declaration has it at a byte.
    pub(super) fn is_declared_at(&self, byte: usize) -> bool {
        self.bytes.as_ref().is_some_and(|bytes| bytes.start == byte)
    }
}

impl Checked {
    /// The names in scope at a byte, those of the innermost block first.
    pub fn names_at(&self, byte: usize) -> Vec<&Name> {
        let mut seen = BTreeSet::new();
        let names = self.names.iter().rev();
        let names = names.filter(|name| name.is_in_scope(byte));
        names.filter(|name| seen.insert(&name.text)).collect()
    }
}

/// The names of a module: those of the host, then its own, then those of functions.
pub(super) fn names_of(host: &[(&str, Meaning)], text: &str, found: &Found) -> Vec<Name> {
    let host = host.iter().rev().map(|(name, meaning)| Name {
        text: (*name).into(),
        bytes: None,
        meaning: meaning.clone(),
        is_inferred: false,
        scope: (0, text.len()),
    });
    let mut names: Vec<Name> = host.collect();
    let repeated = found.faults.iter().filter(|fault| fault.rule == Rule::Duplicate);
    let repeated: BTreeSet<usize> = repeated.map(|fault| fault.place.from).collect();
    let mut meanings = meanings(found);
    let declaring = declaring(&found.tokens, text.len()).into_iter();
    names.extend(declaring.filter(|(index, _)| !repeated.contains(index)).map(|(index, scope)| {
        let (token, behind) = (found.tokens[index], found.tokens.get(index + 1));
        Name {
            text: token.text(text).into(),
            bytes: Some(token.at..token.at + token.len),
            meaning: meanings.remove(&(index + 1)).unwrap_or(Meaning::Unknown),
            is_inferred: behind.is_some_and(|next| next.kind != Kind::Colon),
            scope,
        }
    }));
    names.sort_by_key(|name| name.scope.0 > 0);
    names
}

/// What is known of declared names, by the number of tokens up to the name.
fn meanings(found: &Found) -> BTreeMap<usize, Meaning> {
    let value = |typed: &Typed| Meaning::Value(typed.ty.clone(), typed.stage);
    let of_module = found.declared.iter().filter_map(|declared| {
        let meaning = match declared.known.as_ref()? {
            Known::Value(typed) => value(typed),
            Known::Type(ty) => Meaning::Type(ty.clone()),
            Known::Function(_) => Meaning::Function,
            Known::Faulty => return None,
        };
        Some((declared.named?, meaning))
    });
    let of_functions = found.locals.iter();
    let of_functions = of_functions.filter_map(|of| Some((of.named, value(of.typed.as_ref()?))));
    of_module.chain(of_functions).collect()
}

/// The tokens that declare names, by their indices, with the first and the last byte where these stand for that. For a name of a
/// function that is from the next `;` or `{` on to the end of its block, or of that behind the brackets in which it stands.
fn declaring(tokens: &[Token], end: usize) -> Vec<(usize, (usize, usize))> {
    let kind = |index: usize| tokens.get(index).map_or(Kind::End, |token| token.kind);
    let (mut blocks, mut brackets, mut found) = (0, 0, Vec::new());
    // How many names have a beginning, and those without an end, with the number of blocks around their uses.
    let (mut begun, mut open) = (0, Vec::new());
    for (index, token) in tokens.iter().enumerate() {
        let (before, behind) = (kind(index.wrapping_sub(1)), kind(index + 1));
        match token.kind {
            kind if is_of_module(kind) => (blocks, brackets) = (0, 0),
            Kind::OpenCurly => (blocks, brackets) = (blocks + 1, 0),
            Kind::CloseCurly => blocks -= 1,
            Kind::OpenRound => brackets += 1,
            Kind::CloseRound => brackets -= 1,
            Kind::Name if declares(before, behind, brackets > 0) => {
                let around = blocks.max(0) + i32::from(brackets > 0);
                if around > 0 {
                    open.push((found.len(), around));
                }
                found.push((index, (if around > 0 { end } else { 0 }, end)));
            }
            _ => {}
        }
        if matches!(token.kind, Kind::Semicolon | Kind::OpenCurly) {
            let start = token.at + token.len;
            found[begun..].iter_mut().for_each(|(_, scope)| scope.0 = scope.0.min(start));
            begun = found.len();
        }
        if token.kind == Kind::CloseCurly || is_of_module(token.kind) {
            let left = open.partition_point(|(_, around)| *around <= blocks);
            open.drain(left..).for_each(|(name, _)| found[name].1 .1 = token.at);
        }
    }
    found
}

/// Whether a keyword begins a declaration, which stands in no function.
fn is_of_module(kind: Kind) -> bool {
    matches!(kind, Kind::Fn | Kind::Struct | Kind::Alias | Kind::Override)
}

/// Whether a name is declared between these tokens.
fn declares(before: Kind, behind: Kind, is_in_brackets: bool) -> bool {
    match before {
        Kind::Let | Kind::Var | Kind::Const => true,
        Kind::CloseTemplate => matches!(behind, Kind::Colon | Kind::Equal | Kind::Semicolon),
        _ => is_of_module(before) || is_in_brackets && behind == Kind::Colon,
    }
}
