//! The structs of a module as code in other languages.

use super::{layouts, Message};
use crate::proved::wgsl_report::report::{report_on, Format, ReportOptions};
use crate::proved::wgsl_report::shown::Style;
use crate::shim::{always, std::alloc::Global};
use alloc::string::{String, ToString};
use alloc::vec::Vec;
use core::fmt;

/// A language in which [`code`] writes structs.
#[derive(Clone, Copy, Debug, PartialEq, Eq, Hash)]
#[non_exhaustive]
pub enum Language {
    /// A header of C11 and C++11.
    C,
    /// Rust.
    Rust,
    /// Python, with dtypes of numpy.
    Numpy,
    /// TypeScript: constants of sizes, offsets and bindings.
    TypeScript,
}

/// The errors of a module, of which there is one at least. It displays as a line for each.
#[derive(Clone, Debug, PartialEq, Eq, Hash)]
#[non_exhaustive]
pub struct SourceError {
    /// In the order of the text.
    pub errors: Vec<Message>,
}

impl fmt::Display for SourceError {
    fn fmt(&self, f: &mut fmt::Formatter<'_>) -> fmt::Result {
        let lines: Vec<String> = self.errors.iter().map(Message::to_string).collect();
        f.write_str(&lines.join("\n"))
    }
}

impl core::error::Error for SourceError {}

/// The structs of a module in another language, as `wgsl layout --c`, `--rust`, `--numpy` and `--typescript` print them: C, Rust and
/// numpy check each offset and size. The findings of [`layouts`] are no errors here.
///
/// ```
/// use wgsl_types_proved::source::{code, Language};
///
/// let header = code("struct Light { color: vec3f, power: f32 }", Language::C)?;
/// assert!(header.contains("static_assert(offsetof(struct Light, power) == 12, \"\");"));
/// let error = code("struct Light { color: float3 }", Language::C).unwrap_err();
/// assert_eq!(error.to_string(), "1:23: no declaration has this name: `float3`; did you mean `vec3f`?");
/// # Ok::<(), wgsl_types_proved::source::SourceError>(())
/// ```
pub fn code(text: impl AsRef<[u8]>, language: Language) -> Result<String, SourceError> {
    let errors = layouts(&text).errors;
    if !errors.is_empty() {
        return Err(SourceError { errors });
    }
    let format = match language {
        Language::C => Format::C,
        Language::Rust => Format::Rust,
        Language::Numpy => Format::Numpy,
        Language::TypeScript => Format::TypeScript,
    };
    let options = ReportOptions { file: "", only: &[], format, style: Style::Plain };
    Ok(always(report_on(Global, text.as_ref(), options)).text)
}
