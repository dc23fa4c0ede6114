//! Reads requests in WGSL, as the tests write them: operands are types, and no blank is missing. Beyond WGSL a struct stands
//! with its members where a type does, and vectors and matrices have any numbers of components.

use std::{collections::HashMap, fmt::Debug, str::FromStr};
use wgsl_types_proved::inst::LiteralInstance;
use wgsl_types_proved::requests::{standard_answer, Error};
use wgsl_types_proved::standard::{type_builtin_fn, Operand};
use wgsl_types_proved::syntax::{AccessMode, AddressSpace, Enumerant, RuleSet};
use wgsl_types_proved::tplt::TpltParam;
use wgsl_types_proved::ty::{StructMemberType, StructType};
use wgsl_types_proved::Type;

/// The answer to a request, or why it is refused, of a part of an expression without its column; None if it can't be read.
pub fn reply(request: &str) -> Option<Result<String, String>> {
    match standard_answer(request) {
        Err(Error::Refused(told)) => {
            let message = told.split_once(": ").filter(|(place, _)| place.starts_with("column "));
            Some(Err(message.map_or(&*told, |(_, why)| why).to_string()))
        }
        Err(_) => None,
        Ok(answer) => Some(Ok(answer)),
    }
}

/// The one type that a text spells.
pub fn one_type(text: &str) -> Type {
    let [ty] = &types(text)[..] else { panic!("{text}") };
    ty.clone()
}

/// The types that a text lists.
pub fn types(text: &str) -> Vec<Type> {
    listed(text, |asked| asked.ty())
}

/// The template parameters that a text lists.
pub fn parameters(text: &str) -> Vec<TpltParam> {
    listed(text, |asked| asked.parameter())
}

fn listed<T>(text: &str, item: fn(&mut Asked) -> T) -> Vec<T> {
    let text = format!("{text})");
    let mut asked = Asked { rest: &text, names: HashMap::new() };
    let items = asked.list(")", item);
    assert!(asked.is_empty(), "{text}");
    items
}

/// The text that isn't read yet, and what names stand for, such as the structs that are declared in front of it.
pub struct Asked<'a> {
    rest: &'a str,
    pub names: HashMap<String, Type>,
}

impl<'a> Asked<'a> {
    pub fn new(request: &'a str) -> Asked<'a> {
        let mut asked = Asked { rest: request, names: HashMap::new() };
        while asked.take("struct ") {
            asked.structure();
        }
        asked
    }

    pub fn is_empty(&self) -> bool {
        self.rest.is_empty()
    }

    /// Consumes blanks and a text, if they are next. Returns whether they were.
    pub fn take(&mut self, text: &str) -> bool {
        let behind = self.rest.trim_start().strip_prefix(text);
        self.rest = behind.unwrap_or(self.rest);
        behind.is_some()
    }

    pub fn expect(&mut self, text: &str) {
        assert!(self.take(text), "`{text}` is missing in front of `{}`", self.rest);
    }

    /// What is next, without blanks in front, up to a character of this kind.
    pub fn until(&mut self, is_end: impl Fn(char) -> bool) -> &'a str {
        let rest = self.rest.trim_start();
        let (text, rest) = rest.split_at(rest.find(is_end).unwrap_or(rest.len()));
        self.rest = rest;
        text
    }

    pub fn word(&mut self) -> &'a str {
        self.until(|c| !c.is_alphanumeric() && c != '_')
    }

    fn named<T: FromStr<Err: Debug>>(&mut self) -> T {
        let word = self.word();
        word.parse().expect(word)
    }

    /// Items with commas between them, up to the end, which is consumed too.
    pub fn list<T>(&mut self, end: &str, item: impl Fn(&mut Self) -> T) -> Vec<T> {
        let mut items = Vec::new();
        while !self.take(end) {
            items.push(item(self));
            self.take(",");
        }
        items
    }

    /// A type, or a call of a function that returns a struct, which no text spells.
    pub fn operand(&mut self) -> Operand {
        for name in ["frexp", "modf", "atomicCompareExchangeWeak"] {
            if self.take(&format!("{name}(")) {
                let found = type_builtin_fn(name, None, &self.operands(")"));
                return found.unwrap().expect("a value");
            }
        }
        let says_const = self.take("const ");
        let ty = self.ty();
        if says_const {
            Operand::constant(ty)
        } else {
            Operand::new(ty)
        }
    }

    pub fn operands(&mut self, end: &str) -> Vec<Operand> {
        self.list(end, Asked::operand)
    }

    /// The type behind a colon, if there is one.
    pub fn declared(&mut self) -> Option<Type> {
        self.take(":").then(|| self.ty())
    }

    pub fn space(&mut self) -> AddressSpace {
        AddressSpace::named_by(RuleSet::Standard, self.word()).expect("an address space")
    }

    /// The access mode behind a comma, if there is one.
    pub fn access(&mut self) -> Option<AccessMode> {
        self.take(",").then(|| self.named())
    }

    pub fn ty(&mut self) -> Type {
        if self.take("struct ") {
            return self.structure().into();
        }
        let name = self.word();
        if let Some(ty) = self.names.get(name) {
            return ty.clone();
        }
        if !self.rest.starts_with('<') {
            return name.parse().expect(name);
        }
        self.expect("<");
        let ty = match name {
            "array" => {
                let element = self.ty();
                Type::array(self.count(), element)
            }
            "binding_array" => {
                let element = Box::new(self.ty());
                Type::BindingArray(element, self.count())
            }
            "atomic" => Type::Atomic(Box::new(self.ty())),
            "ptr" => self.memory(Type::Ptr),
            "ref" => self.memory(Type::Ref),
            _ => match components(name)[..] {
                [n] => Type::vector(n, self.ty()),
                [columns, rows] => Type::matrix(columns, rows, self.ty()),
                _ => {
                    let spelled = format!("{name}<{}>", self.until(|c| c == '>'));
                    spelled.parse().expect(&spelled)
                }
            },
        };
        self.expect(">");
        ty
    }

    /// A literal, an enumerant or a type.
    fn parameter(&mut self) -> TpltParam {
        let (text, handle) = (self.rest.trim_start(), AddressSpace::Handle);
        let word = self.until(|c| ",<)".contains(c));
        match (literal(word), word.parse()) {
            (Some(literal), _) => TpltParam::Instance(literal.into()),
            _ if word == "handle" => TpltParam::Enumerant(Enumerant::AddressSpace(handle)),
            (_, Ok(enumerant)) if !self.rest.starts_with('<') => TpltParam::Enumerant(enumerant),
            _ => {
                self.rest = text;
                TpltParam::Type(self.ty())
            }
        }
    }

    fn count(&mut self) -> Option<usize> {
        self.take(",").then(|| self.named())
    }

    fn memory(&mut self, make: fn(AddressSpace, Box<Type>, AccessMode) -> Type) -> Type {
        let space = self.space();
        self.expect(",");
        let of = Box::new(self.ty());
        make(space, of, self.access().expect("an access mode"))
    }

    /// A struct that is declared here.
    pub fn structure(&mut self) -> StructType {
        let name = self.word();
        self.expect("{");
        let members = self.list("}", |asked| {
            let (size, align) = (asked.attribute("@size("), asked.attribute("@align("));
            let name = asked.word().to_string();
            StructMemberType { name, size, align, ty: asked.declared().expect("a type") }
        });
        let structure = StructType { name: name.to_string(), members };
        self.names.insert(name.to_string(), structure.clone().into());
        structure
    }

    fn attribute(&mut self, start: &str) -> Option<u32> {
        let value = self.take(start).then(|| self.named())?;
        self.expect(")");
        Some(value)
    }
}

/// The number of a vector's components, the two of a matrix, and nothing of another name.
fn components(name: &str) -> Vec<u8> {
    let numbers = name.strip_prefix("vec").or(name.strip_prefix("mat")).unwrap_or_default();
    numbers.split('x').filter_map(|number| number.parse().ok()).collect()
}

/// `true`, `false`, or a number with the suffix of its kind.
fn literal(word: &str) -> Option<LiteralInstance> {
    let digits = word.trim_end_matches(char::is_alphabetic);
    Some(match &word[digits.len()..] {
        "" => LiteralInstance::AbstractInt(digits.parse().ok()?),
        "i" => LiteralInstance::I32(digits.parse().ok()?),
        "u" => LiteralInstance::U32(digits.parse().ok()?),
        "li" => LiteralInstance::I64(digits.parse().ok()?),
        "lu" => LiteralInstance::U64(digits.parse().ok()?),
        truth => LiteralInstance::Bool(truth.parse().ok()?),
    })
}
