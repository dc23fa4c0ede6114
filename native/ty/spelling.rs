//! Types that are read from text.

use super::Type;
use crate::proved::wgsl_reader::{expected, lists, rule::Rule};
use crate::proved::wgsl_report::message;
use crate::proved::wgsl_spelling::fault::{Cause, Fault};
use crate::proved::wgsl_spelling::{meant::meant, spelled::type_of_text};
use crate::reader::{read, Token};
use crate::shim::{always, std::alloc::Global};
use alloc::{format, string::String};
use core::{fmt, str::FromStr};

/// Why a text can't be read as a type. It displays as `column 6: ..`, in bytes from 1.
#[derive(Clone, Debug, PartialEq, Eq, Hash)]
#[non_exhaustive]
pub struct SpellingError {
    /// Where in the text the fault is, in bytes from 0. It may be the end of the text.
    pub offset: usize,
    /// What is expected there.
    pub message: String,
}

impl FromStr for Type {
    type Err = SpellingError;

    /// The type that a text spells by WGSL's grammar, with blanks, comments and counts that are const-expressions. Beyond WGSL
    /// there are `ref<..>`, access modes in any `ptr<..>`, abstract types, counts of 0 and naga's types. A struct's name says
    /// nothing of its members, so no struct is read. More than 255 template lists inside one another are refused before
    /// anything is built.
    ///
    /// ```
    /// use wgsl_types_proved::Type;
    ///
    /// let ty: Type = "array<vec3<f32>, 4>".parse()?;
    /// assert_eq!(ty, Type::array(Some(4), Type::vector(3, Type::F32)));
    /// assert_eq!("array<vec3f,2*2u,>".parse(), Ok(ty));
    /// assert_eq!("vec3<float>".parse::<Type>().unwrap_err().offset, 5);
    /// # Ok::<(), wgsl_types_proved::ty::SpellingError>(())
    /// ```
    fn from_str(text: &str) -> Result<Type, SpellingError> {
        always(type_of_text(Global, text)).map_err(|fault| misspelt(text, fault))
    }
}

impl Type {
    /// The type that a predeclared name alone stands for in WGSL, as `f32`, `sampler` or the alias `vec3f`. None if the name needs
    /// a template list, or stands for no type. No text of WGSL names AbstractInt and AbstractFloat.
    ///
    /// ```
    /// use wgsl_types_proved::Type;
    ///
    /// assert_eq!(Type::predeclared("vec3f"), Some(Type::vector(3, Type::F32)));
    /// assert_eq!(Type::predeclared("vec3"), None);
    /// assert_eq!(Type::predeclared("AbstractInt"), None);
    /// ```
    pub fn predeclared(name: &str) -> Option<Type> {
        let is_letter = |byte: u8| byte.is_ascii_alphanumeric() || byte == b'_';
        let found = if name.bytes().all(is_letter) { name.parse().ok() } else { None };
        found.filter(Type::is_concrete)
    }
}

#[cold]
fn misspelt(text: &str, fault: Fault) -> SpellingError {
    let tokens = always(lists::tokens_of(Global, text.as_bytes())).unwrap_or_default();
    let index = tokens.iter().position(|token| token.at == fault.at);
    let word = index.map_or("", |index| tokens[index].text(text));
    let mut message = match fault.cause {
        Cause::Misread => expected_at(&tokens, index.unwrap_or(tokens.len())),
        cause => String::from(cause.text()),
    };
    match (fault.cause, word) {
        (Cause::OpenComment | Cause::OpenList | Cause::Strange, _) => {}
        (Cause::Misread, "") => message.push_str(", found the end"),
        (_, "") => {}
        (Cause::Misread | Cause::Expected(_), word) => {
            message.push_str(&format!(", found `{}`", beginning(word)))
        }
        (_, word) => message.push_str(&format!(": `{}`", beginning(word))),
    }
    if let Some(name) = meant(fault.cause, word) {
        message.push_str(&format!("; did you mean `{name}`?"));
    }
    SpellingError { offset: fault.at, message }
}

/// What may stand in place of the token with this index.
fn expected_at(tokens: &[Token], index: usize) -> String {
    let front = tokens.get(..index).unwrap_or_default();
    let expected = always(expected::expected(Global, Rule::Type, front));
    let or_end = if read(Rule::Type, front).is_ok() { " or the end" } else { "" };
    expected + or_end
}

/// The beginning of a word, and dots for what follows.
fn beginning(word: &str) -> String {
    let (quoted, dots) = message::beginning(word);
    quoted.chars().flat_map(char::escape_debug).chain(dots.chars()).collect()
}

impl fmt::Display for SpellingError {
    fn fmt(&self, f: &mut fmt::Formatter<'_>) -> fmt::Result {
        write!(f, "column {}: {}", self.offset.saturating_add(1), self.message)
    }
}

impl core::error::Error for SpellingError {}
