//! The check of a WGSL module: the type of each expression, and what is wrong.

mod names;
mod signature;
mod uses;

use crate::proved::wgsl_core::ty::show::ShownType;
use crate::proved::wgsl_module::module::{check as checked, Checked as Found};
use crate::proved::wgsl_reader::token::Token;
use crate::proved::wgsl_report::faults::explained;
use crate::proved::wgsl_report::message::{write_misread, EXPLAINED};
use crate::proved::wgsl_source::text::Text;
use crate::proved::wgsl_standard::forms::form::Referent;
use crate::proved::wgsl_syntax::rules::RuleSet;
use crate::proved::wgsl_typing::count::with_counts;
use crate::proved::wgsl_typing::fault::Place;
use crate::proved::wgsl_typing::known::{Known, Outcome, Typed};
use crate::shim::{always, std::alloc::Global};
use crate::ty::Type;
use alloc::string::{String, ToString};
use alloc::vec::Vec;
use core::ops::Range;

pub use crate::proved::wgsl_typing::{fault::Rule, stage::Stage};
use names::names_of;
pub use names::{Meaning, Name};
pub use signature::Signature;
pub use uses::Member;

/// What is found of a module.
#[derive(Clone, Debug)]
#[non_exhaustive]
pub struct Checked {
    /// Its expressions.
    pub parts: Vec<Part>,
    /// What is wrong, in the order of the text.
    pub faults: Vec<Fault>,
    /// Its names in the order of the text, first those of the host, then those of the module, then those of functions.
    pub names: Vec<Name>,
    text: String,
    tokens: Vec<Token>,
    counts: Vec<String>,
    /// The indices of parts by their ends, of two with one end the longer one last.
    by_end: Vec<usize>,
    /// The indices of names by their texts, those of one text in their order.
    by_text: Vec<usize>,
}

/// An expression.
#[derive(Clone, Debug)]
#[non_exhaustive]
pub struct Part {
    /// Its bytes.
    pub bytes: Range<usize>,
    /// Its type, and when its value is known; None if it has a fault, or no value.
    pub typed: Option<(Type, Stage)>,
    /// Where the name that declares it begins, if it is a name that the module declares.
    pub declared: Option<usize>,
}

/// Something that is wrong.
#[derive(Clone, Debug)]
#[non_exhaustive]
pub struct Fault {
    /// The rule that is broken.
    pub rule: Rule,
    /// The bytes where it is.
    pub bytes: Range<usize>,
    /// What is wrong.
    pub message: String,
    /// Why overloads don't take the operands, the nearest first; or where another declaration is.
    pub notes: Vec<Note>,
}

/// What else there is to say of a fault.
#[derive(Clone, Debug)]
#[non_exhaustive]
pub struct Note {
    /// The bytes of the name that another declaration declares, or those of the fault.
    pub bytes: Range<usize>,
    /// What there is to say.
    pub message: String,
}

impl Checked {
    /// The smallest expression around a byte.
    pub fn part_at(&self, byte: usize) -> Option<&Part> {
        let around = self.parts.iter().filter(|part| part.bytes.contains(&byte));
        around.min_by_key(|part| part.bytes.len())
    }

    /// The spelling of a type of the module. A count that an override gives is as it is written: in the type it is a number from
    /// 0x80000000 on.
    pub fn spelling(&self, ty: &Type) -> String {
        let shown = ShownType { ty, rules: RuleSet::Standard }.to_string();
        always(with_counts(Global, &shown, &self.counts))
    }
}

/// Checks a module.
pub fn check(text: &str) -> Checked {
    check_in(&[], text)
}

/// Checks a module in which a host declares names, of two with one name the first. The module may declare them too, which hides
/// what the host says of them.
pub fn check_in(host: &[(&str, Meaning)], text: &str) -> Checked {
    let given = host.iter().map(|(name, meaning)| {
        let known = match meaning.clone() {
            Meaning::Value(ty, stage) => Known::Value(Typed::of(ty, stage)),
            Meaning::Type(ty) => Known::Type(ty),
            Meaning::Function | Meaning::Unknown => Known::Faulty,
        };
        (*name, known)
    });
    let mut found = always(checked(Global, given.collect(), text));
    explain(&mut found, text);
    let names = names_of(host, text, &found);
    let (tokens, counts) = (found.tokens, found.counts);
    let bytes = |place: Place| bytes_of(text, &tokens, place);
    let parts = found.parts.into_iter().map(|part| Part {
        bytes: bytes(part.place),
        typed: match part.outcome {
            Outcome::Typed(typed) => Some((shown(typed.referent, typed.ty), typed.stage)),
            Outcome::NoValue | Outcome::Faulty => None,
        },
        declared: part.declared.map(|count| start_of(text, &tokens, count.wrapping_sub(1))),
    });
    let faults = found.faults.into_iter().map(|fault| Fault {
        rule: fault.rule,
        bytes: bytes(fault.place),
        message: fault.message,
        notes: (fault.notes.into_iter())
            .map(|note| Note { bytes: bytes(note.place), message: note.message })
            .collect(),
    });
    let (parts, faults): (Vec<Part>, _) = (parts.collect(), faults.collect());
    let mut by_end: Vec<usize> = (0..parts.len()).collect();
    by_end.sort_by_key(|index| (parts[*index].bytes.end, parts[*index].bytes.len()));
    let mut by_text: Vec<usize> = (0..names.len()).collect();
    by_text.sort_by(|left, right| names[*left].text.cmp(&names[*right].text));
    Checked { parts, faults, names, text: text.into(), tokens, counts, by_end, by_text }
}

/// The type that is shown: of a swizzle that of its value.
fn shown(referent: Referent, ty: Type) -> Type {
    match (referent, ty) {
        (Referent::Swizzle, Type::Ref(_, value, _)) => *value,
        (_, ty) => ty,
    }
}

/// Says of faults of syntax what may stand there, as many as the program explains.
fn explain(found: &mut Found, text: &str) {
    let text = Text { text, tokens: &found.tokens };
    let mut left = EXPLAINED;
    for fault in &mut found.faults {
        if let Some(misread) = explained(text, &found.misread, fault.place, &mut left) {
            fault.message.clear();
            always(write_misread(&mut fault.message, Global, text, misread, None));
        }
    }
}

fn start_of(text: &str, tokens: &[Token], index: usize) -> usize {
    tokens.get(index).map_or(text.len(), |token| token.at)
}

fn bytes_of(text: &str, tokens: &[Token], place: Place) -> Range<usize> {
    let start = start_of(text, tokens, place.from);
    let last = tokens.get(place.to.wrapping_sub(1));
    start..last.map_or(start, |token| (token.at + token.len).max(start))
}
