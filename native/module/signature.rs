//! The call around a byte.

use super::{Checked, Meaning, Name};
use crate::proved::wgsl_reader::kind::Kind::{self, *};
use crate::proved::wgsl_standard::operand::{loaded, Operand, OperandType};
use crate::proved::wgsl_standard::overload::parameters_of;
use crate::proved::wgsl_standard::refusal::refused_at;
use crate::proved::wgsl_standard::signature::{signatures, Signature as Line};
use crate::proved::wgsl_standard::written::{parameter_count, takes_either};
use crate::proved::wgsl_syntax::overload::Dimensions;
use crate::shim::{always, std::alloc::Global};
use crate::standard::{constructor_of, Called, Overload};
use crate::ty::Type;
use alloc::string::{String, ToString};
use alloc::vec::Vec;
use alloc::{format, vec};
use core::ops::Range;

/// A call, as an editor shows it.
#[derive(Clone, Debug)]
#[non_exhaustive]
pub struct Signature {
    /// The overloads of what is called; of a function or a struct of the module one, with the names of its parameters.
    pub overloads: Vec<Overload>,
    /// The index of the overload that takes the arguments, or else of the first one that takes those in front.
    pub fitting: Option<usize>,
    /// The index of the argument, and so of the parameter, that the byte is in.
    pub argument: usize,
}

impl Checked {
    /// The innermost call around a byte, if what it calls has overloads, parameters or members.
    pub fn signature_at(&self, byte: usize) -> Option<Signature> {
        let (open, name) = self.call_around(byte)?;
        let arguments = self.divided(open).0;
        let is_passed = |of: &&Range<usize>| self.tokens.get(of.end).is_some_and(|it| it.at < byte);
        let argument = arguments.iter().filter(is_passed).count();
        let word = self.between(name..name + 1);
        let known = self.names_at(self.tokens[name].at).into_iter().find(|name| name.text == word);
        if let Some(overload) = known.and_then(|name| self.overload_of(name)) {
            return Some(Signature { overloads: vec![overload], fitting: Some(0), argument });
        }
        let listed = (name + 1 < open).then(|| self.between(name + 2..open - 1).parse().ok());
        let constructed =
            |ty: &Type| constructor_of(ty).map(|(name, of)| (name, of.map(|of| Some(of.clone()))));
        let (name, template) = match known.map(|name| &name.meaning) {
            Some(Meaning::Type(ty)) => constructed(ty)?,
            Some(_) => return None,
            None => match Type::predeclared(word) {
                Some(ty) => constructed(&ty)?,
                None => (word.into(), listed),
            },
        };
        let callees = [Called::Function(&name), Called::Constructor(&name)];
        let lines = callees.into_iter().flat_map(|callee| always(signatures(Global, callee)));
        let lines: Vec<Line> = lines.filter(|of| of.has_template == template.is_some()).collect();
        let overloads = lines.iter().map(|line| Overload { text: line.to_string() }).collect();
        let arguments = arguments.iter().filter(|of| !of.is_empty()).map(|of| self.operand(of));
        let template = template.iter().map(|ty| Some(Operand::of(ty.as_ref()?, true)));
        let operands: Vec<_> = template.chain(arguments).collect();
        let fitting = fitting(&lines, &operands, argument);
        (!lines.is_empty()).then_some(Signature { overloads, fitting, argument })
    }

    /// An argument by its tokens, if its type is known.
    fn operand(&self, argument: &Range<usize>) -> Option<Operand<'_>> {
        let bytes = self.bytes(argument)?;
        let part = self.parts.iter().find(|part| part.bytes == bytes)?;
        let (ty, stage) = part.typed.as_ref()?;
        Some(Operand::of(loaded(ty), stage.is_const()))
    }

    /// A function or a struct of the module as an overload, or that which a type stands for: `f(a: f32, b: vec3f) -> f32`.
    pub fn overload_of(&self, name: &Name) -> Option<Overload> {
        let name = match &name.meaning {
            Meaning::Type(Type::Struct(of)) => {
                self.names.iter().find(|name| name.text == of.name && name.bytes.is_some())?
            }
            _ => name,
        };
        let index = self.declared_by(name, &[Fn, Struct])?;
        let (parameters, close) = self.fields(index + 1);
        let parameters = parameters.into_iter().map(|(name, ty)| {
            let (name, ty) = (self.between(name..name + 1), self.between(ty));
            format!("{name}: {ty}")
        });
        let parameters: Vec<String> = parameters.collect();
        let body = (close..).find(|index| matches!(self.kind(*index), OpenCurly | Fn | End))?;
        let is_result = self.kind(close + 1) == Arrow;
        let result = if is_result { self.between(close + 1..body) } else { "" };
        let text = format!("{}({}) {result}", name.text, parameters.join(", "));
        Some(Overload { text: text.trim_end().into() })
    }

    /// The index of a name's token in its declaration, if that begins with one of these.
    pub(super) fn declared_by(&self, name: &Name, kinds: &[Kind]) -> Option<usize> {
        let start = name.bytes.as_ref()?.start;
        let index = self.tokens.binary_search_by_key(&start, |token| token.at).ok()?;
        kinds.contains(&self.kind(index.wrapping_sub(1))).then_some(index)
    }

    /// The parameters of a function or the members of a struct, behind the open bracket: the token of each name and those of its
    /// type. Then the index of the token behind them.
    pub(super) fn fields(&self, open: usize) -> (Vec<(usize, Range<usize>)>, usize) {
        let (fields, close) = self.divided(open);
        let fields = fields.into_iter().filter_map(|of| {
            let colon = of.clone().find(|index| self.kind(*index) == Colon)?;
            Some((colon.checked_sub(1)?, colon + 1..of.end))
        });
        (fields.collect(), close)
    }

    pub(super) fn kind(&self, index: usize) -> Kind {
        self.tokens.get(index).map_or(End, |token| token.kind)
    }

    pub(super) fn bytes(&self, tokens: &Range<usize>) -> Option<Range<usize>> {
        let (first, last) = (self.tokens.get(tokens.start)?, self.tokens.get(tokens.end - 1)?);
        Some(first.at..last.at + last.len)
    }

    pub(super) fn between(&self, tokens: Range<usize>) -> &str {
        self.bytes(&tokens).and_then(|bytes| self.text.get(bytes)).unwrap_or_default()
    }

    /// The `(` of the innermost call around a byte, and the name that is called.
    fn call_around(&self, byte: usize) -> Option<(usize, usize)> {
        let behind = self.tokens.partition_point(|token| token.at < byte);
        let is_end = |at: &usize| matches!(self.kind(*at), Semicolon | OpenCurly | CloseCurly);
        let statement = (0..behind).rev().find(is_end).unwrap_or(0)..behind;
        let front = |kind: Kind| statement.clone().rev().filter(move |at| self.kind(*at) == kind);
        let is_around = |open: &usize| behind <= self.divided(*open).1;
        front(OpenRound).filter(is_around).find_map(|open| {
            let is_its_list = |list: &usize| self.divided(*list).1 + 1 == open;
            let name = match self.kind(open.wrapping_sub(1)) {
                CloseTemplate => front(OpenTemplate).find(is_its_list)?,
                _ => open,
            };
            let name = name.checked_sub(1)?;
            let is_declared = matches!(self.kind(name.wrapping_sub(1)), At | Fn);
            (self.kind(name) == Kind::Name && !is_declared).then_some((open, name))
        })
    }

    /// What stands between the commas behind an open bracket, and the index of the token behind that.
    fn divided(&self, open: usize) -> (Vec<Range<usize>>, usize) {
        let (mut found, mut from, mut depth, mut index) = (Vec::new(), open + 1, 0, open + 1);
        loop {
            match self.kind(index) {
                OpenRound | OpenSquare | OpenTemplate => depth += 1,
                CloseRound | CloseSquare | CloseTemplate if depth > 0 => depth -= 1,
                Comma if depth == 0 => {
                    found.push(from..index);
                    from = index + 1;
                }
                CloseRound | CloseSquare | CloseTemplate => break,
                OpenCurly | CloseCurly | Semicolon | End => break,
                _ => {}
            }
            index += 1;
        }
        found.push(from..index);
        (found, index)
    }
}

/// The index of an overload that takes the operands in front of the argument, as far as they are known: if one has as many
/// parameters as there are operands, and takes those, the first of these.
fn fitting(lines: &[Line], operands: &[Option<Operand>], argument: usize) -> Option<usize> {
    let known: Vec<Operand> = operands.iter().map_while(|operand| *operand).collect();
    let first = known.first().map(|operand| operand.ty);
    let is_vector = matches!(first, Some(OperandType::Value(Dimensions::Vector(_), _)));
    let takes = |line: &Line, operands| refused_at(&[*line.overload], operands).is_none();
    let fitting = (0..lines.len()).filter(|index| {
        let line = &lines[*index];
        let (parameters, before) = (parameters_of(line.overload), usize::from(line.has_template));
        let is_of_these = !takes_either(parameters) || line.of_vectors == is_vector;
        let count = parameter_count(parameters) - before;
        let front = &known[..known.len().min(before + argument)];
        is_of_these && argument < count.max(1) && takes(line, front)
    });
    fitting.min_by_key(|index| {
        let count = parameter_count(parameters_of(lines[*index].overload));
        count != operands.len() || !takes(&lines[*index], &known)
    })
}
