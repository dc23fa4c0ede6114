//! Requests in text, answered in text: each is a line to `wgsl ask`, in WGSL, or to `wgsl_check`, in words.

use crate::proved::wgsl_replies::request::{self, reply_to, Reply, TextKind};
use crate::proved::wgsl_syntax::rules::RuleSet;
use crate::shim::{always, std::alloc::Global};
use alloc::string::String;
use core::fmt;

/// Why a request has no answer.
#[derive(Clone, Debug, PartialEq, Eq, Hash)]
#[non_exhaustive]
pub enum Error {
    /// The request isn't what can be asked, is blank, has a line feed, or has more than 4096 bytes. The text says why: the
    /// column in bytes, in words also the number of the word, and what was expected there.
    Unreadable(String),
    /// The rules refuse the expression. The text is their message, with the column in bytes if a part has no type. If there
    /// is no rank, common type, size or layout, the answer is `none` and no error.
    Refused(String),
}

impl fmt::Display for Error {
    fn fmt(&self, f: &mut fmt::Formatter<'_>) -> fmt::Result {
        match self {
            Error::Unreadable(why) => write!(f, "the request is unreadable: {why}"),
            Error::Refused(message) => f.write_str(message),
        }
    }
}

impl core::error::Error for Error {}

/// Answers a request in WGSL by WGSL's own rules, as a line to `wgsl ask`.
///
/// ```
/// use wgsl_types_proved::requests::{standard_answer, Error};
///
/// assert_eq!(standard_answer("type -vec3f")?, "vec3<f32>");
/// assert_eq!(standard_answer("resolve 1 + f32")?, "0 (f32, f32) -> f32");
/// assert_eq!(standard_answer("struct S { a: f32 } let x: f32 = S.a * 2")?, "f32");
/// let refused = "column 11: no overload of `+` takes (bool, bool)".to_string();
/// assert_eq!(standard_answer("type bool + bool"), Err(Error::Refused(refused)));
/// let why = standard_answer("why sqrt(i32)")?;
/// assert_eq!(why.lines().next(), Some("sqrt(T) -> T, T: float: argument 1 is i32"));
/// assert!(matches!(standard_answer("type i32 +"), Err(Error::Unreadable(_))));
/// # Ok::<(), Error>(())
/// ```
pub fn standard_answer(request: &str) -> Result<String, Error> {
    answer_by(RuleSet::Standard, request)
}

/// Answers a request in words by the rules of the crate wgsl-types, as a line of the program `wgsl_check`. Names in requests and in
/// answers may have NULs.
///
/// ```
/// use wgsl_types_proved::requests::{answer, Error};
///
/// assert_eq!(answer("binary + AbstractInt vec 3 f32")?, "vec3<f32>");
/// assert_eq!(answer("rank i32 f32")?, "none");
/// let why = "column 13, word 4: a type is missing".to_string();
/// assert_eq!(answer("binary + i32"), Err(Error::Unreadable(why)));
/// # Ok::<(), Error>(())
/// ```
pub fn answer(request: &str) -> Result<String, Error> {
    answer_by(RuleSet::Ported, request)
}

/// Why a request in WGSL can't be read; None if it can.
///
/// ```
/// use wgsl_types_proved::requests::standard_explain;
///
/// assert_eq!(standard_explain("type i32 +").as_deref(), Some("column 11: expected an operand"));
/// assert_eq!(standard_explain("overloads clamp"), None);
/// ```
pub fn standard_explain(request: &str) -> Option<String> {
    explain_by(RuleSet::Standard, request)
}

/// Why a request in words can't be read; None if it can.
///
/// ```
/// use wgsl_types_proved::requests::explain;
///
/// let why = "column 10, word 3: `f33` is no type; did you mean `f32`?";
/// assert_eq!(explain("rank i32 f33").as_deref(), Some(why));
/// let why = "column 1, word 1: `overloads` is no command";
/// assert_eq!(explain("overloads clamp").as_deref(), Some(why));
/// ```
pub fn explain(request: &str) -> Option<String> {
    explain_by(RuleSet::Ported, request)
}

fn answer_by(rules: RuleSet, request: &str) -> Result<String, Error> {
    match always(reply_to(Global, rules, request.as_bytes())) {
        Reply::Answer(TextKind::Answer, answer) => Ok(answer),
        Reply::Answer(TextKind::Refusal, message) => Err(Error::Refused(message)),
        Reply::Nothing | Reply::Unreadable => {
            Err(Error::Unreadable(explain_by(rules, request).unwrap_or_default()))
        }
    }
}

fn explain_by(rules: RuleSet, request: &str) -> Option<String> {
    match always(request::explain(Global, rules, request.as_bytes())) {
        Reply::Answer(_, why) => Some(why),
        Reply::Nothing | Reply::Unreadable => None,
    }
}
