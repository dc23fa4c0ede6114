//! Reads WGSL: the tokens of a text with its template lists, and what they are by WGSL's grammar.
//!
//! What is read is a list of events in postfix order, each behind what it is about: of `a.x * f(b)` they are `Name` of `a`,
//! `MemberOf` of `x`, `Operator` of `*`, `Name` of `f`, `Open`, `Name` of `b`, `Call`, `Binary`.
//!
//! ```
//! use wgsl_types_proved::reader::{read, tokens, Mark, Rule};
//!
//! let text = "a.x * f(b)";
//! let tokens = tokens(text)?;
//! let events = read(Rule::Expression, &tokens)?;
//! let names = events.iter().filter(|event| event.mark == Mark::Name);
//! let names: Vec<&str> = names.map(|event| tokens[event.at - 1].text(text)).collect();
//! assert_eq!(names, ["a", "f", "b"]);
//! # Ok::<(), usize>(())
//! ```

use crate::proved::wgsl_reader::module::Module;
use crate::proved::wgsl_reader::{expected, lists, module, read};
pub use crate::proved::wgsl_reader::{
    kind::Kind, mark::Mark, module::Misread, read::Event, rule::Rule, token::Token,
};
use crate::proved::wgsl_report::keyword;
use crate::proved::wgsl_spelling::value::type_of_literal;
use crate::shim::{always, std::alloc::Global};
use crate::Type;
use alloc::{string::String, vec::Vec};

impl Token {
    /// The bytes of the token, as a text.
    pub fn text<'t>(&self, text: &'t str) -> &'t str {
        text.get(self.at..self.at + self.len).unwrap_or_default()
    }

    /// The type of the literal that the token is (WGSL, "Literals"), or None of another token.
    ///
    /// ```
    /// use wgsl_types_proved::{reader::tokens, Type};
    ///
    /// let text = "0x1Fu + a";
    /// let types: Vec<_> = tokens(text)?.iter().map(|token| token.literal_type(text)).collect();
    /// assert_eq!(types, [Some(Type::U32), None, None]);
    /// # Ok::<(), usize>(())
    /// ```
    pub fn literal_type(&self, text: &str) -> Option<Type> {
        let is_literal = matches!(self.kind, Kind::Number | Kind::True | Kind::False);
        is_literal.then(|| type_of_literal(self.kind, self.text(text).as_bytes()).into())
    }
}

/// The tokens of a text.
///
/// # Errors
///
/// The index of the byte where no token begins, or of a block comment that isn't closed.
pub fn tokens(text: &str) -> Result<Vec<Token>, usize> {
    always(lists::tokens_of(Global, text.as_bytes()))
}

/// Reads all of the tokens by a rule: `Rule::Expression`, `Rule::Type`, ..
///
/// # Errors
///
/// The index of the first token that can't stand there, or the number of tokens if more are missing.
pub fn read(rule: Rule, tokens: &[Token]) -> Result<Vec<Event>, usize> {
    always(read::read(Global, rule, tokens, 0))
}

/// Reads a module: the events of the declarations that can be read, and those that can't.
pub fn read_module(tokens: &[Token]) -> (Vec<Event>, Vec<Misread>) {
    let Module { events, misread } = always(module::read_module(Global, tokens));
    (events, misread)
}

/// What may stand where a declaration is misread: "expected `;` or an operator".
pub fn expected_at(misread: &Misread, tokens: &[Token]) -> String {
    let front = tokens.get(misread.from..misread.at).unwrap_or_default();
    always(expected::expected(Global, misread.rule, front))
}

/// The keyword that a misspelled word may have meant, and the index of that word: of `retrun x;` it is `return`. The word is
/// the token that can't stand where a declaration is misread, or the first one of that statement. None if no keyword is near
/// it with which more is read.
///
/// ```
/// use wgsl_types_proved::reader::{meant_at, read_module, tokens};
///
/// let text = "fn f() { retrun x; }";
/// let tokens = tokens(text)?;
/// let (_, misread) = read_module(&tokens);
/// let (index, keyword) = meant_at(&misread[0], &tokens, text).unwrap();
/// assert_eq!((tokens[index].text(text), keyword), ("retrun", "return"));
/// # Ok::<(), usize>(())
/// ```
pub fn meant_at<'t>(
    misread: &Misread,
    tokens: &[Token],
    text: &'t str,
) -> Option<(usize, &'t str)> {
    always(keyword::meant_at(Global, *misread, tokens, text))
}
