//! The overloads of a name, as texts.

use super::Called;
use crate::proved::wgsl_standard::{callee, signature::signatures};
use crate::proved::wgsl_syntax::tables::names::{FUNCTIONS, TEMPLATE_FUNCTIONS};
use crate::shim::{always, std::alloc::Global};
use alloc::string::{String, ToString};
use alloc::vec::Vec;
use core::{fmt, ops::Range};

/// An overload, as a text in one line: `clamp(vecN<T>, vecN<T>, vecN<T>) -> vecN<T>, T: number`. It displays as the text.
#[derive(Clone, Debug, PartialEq, Eq, Hash)]
#[non_exhaustive]
pub struct Overload {
    /// The name or the operator, the parameters, the result if there is one, and what the letters stand for.
    pub text: String,
}

impl Overload {
    /// Whether it is called with a template, as `vec3<f32>(..)` is.
    ///
    /// ```
    /// use wgsl_types_proved::standard::overloads;
    ///
    /// assert!(overloads("bitcast").iter().all(|overload| overload.has_template()));
    /// assert!(overloads("<").iter().all(|overload| !overload.has_template()));
    /// ```
    pub fn has_template(&self) -> bool {
        let name = self.text.trim_start_matches(|c: char| c.is_ascii_alphanumeric());
        name.len() < self.text.len() && name.starts_with('<')
    }

    /// The ranges of the parameters in the text, in bytes, which an editor highlights for an argument.
    ///
    /// ```
    /// use wgsl_types_proved::standard::overloads;
    ///
    /// let ldexp = &overloads("ldexp")[1];
    /// let parameters: Vec<&str> = ldexp.parameters().into_iter().map(|at| &ldexp.text[at]).collect();
    /// assert_eq!(ldexp.text, "ldexp(vecN<T>, vecN<U>) -> vecN<T>, T: float, U: signed integer");
    /// assert_eq!(parameters, ["vecN<T>", "vecN<U>"]);
    /// ```
    pub fn parameters(&self) -> Vec<Range<usize>> {
        let Some(open) = self.text.find('(') else {
            return Vec::new();
        };
        let mut parameters = Vec::new();
        let (mut start, mut depth) = (open + 1, 0);
        for (at, byte) in self.text.bytes().enumerate().skip(start) {
            match byte {
                b'<' | b'(' => depth += 1,
                b',' | b')' if depth == 0 => {
                    if at > start {
                        parameters.push(start..at);
                    }
                    if byte == b')' {
                        break;
                    }
                    start = at + ", ".len();
                }
                b'>' | b')' => depth -= 1,
                _ => {}
            }
        }
        parameters
    }
}

impl fmt::Display for Overload {
    fn fmt(&self, f: &mut fmt::Formatter<'_>) -> fmt::Result {
        f.write_str(&self.text)
    }
}

/// The overloads with a name: those of the unary operator, of the binary operator, of the built-in function and of the
/// constructor that have it, each first without a template and then with one. None if nothing has the name.
///
/// An overload that takes scalars and vectors has two texts, one for each.
///
/// ```
/// use wgsl_types_proved::standard::overloads;
///
/// let texts: Vec<String> = overloads("mix").into_iter().map(|overload| overload.text).collect();
/// assert_eq!(
///     texts,
///     [
///         "mix(T, T, T) -> T, T: float",
///         "mix(vecN<T>, vecN<T>, vecN<T>) -> vecN<T>, T: float",
///         "mix(vecN<T>, vecN<T>, T) -> vecN<T>, T: float",
///     ]
/// );
/// assert_eq!(overloads("mixed"), []);
/// ```
pub fn overloads(name: &str) -> Vec<Overload> {
    let callees = [
        name.parse().map(Called::Unary).ok(),
        name.parse().map(Called::Binary).ok(),
        Some(Called::Function(name)),
        Some(Called::Constructor(name)),
    ];
    let all = callees.into_iter().flatten().flat_map(|callee| always(signatures(Global, callee)));
    all.map(|signature| Overload { text: signature.to_string() }).collect()
}

/// The built-in functions that have overloads.
///
/// ```
/// use wgsl_types_proved::standard::functions;
///
/// assert!(functions().any(|name| name == "dpdx") && functions().any(|name| name == "bitcast"));
/// ```
pub fn functions() -> impl Iterator<Item = &'static str> {
    let with_template = TEMPLATE_FUNCTIONS.iter().map(|row| row.0);
    FUNCTIONS.iter().map(|row| row.0).chain(with_template)
}

/// Whether a built-in function has the name.
///
/// ```
/// use wgsl_types_proved::standard::is_function;
///
/// assert!(is_function("bitcast") && !is_function("vec3"));
/// ```
pub fn is_function(name: &str) -> bool {
    [false, true]
        .iter()
        .any(|template| callee::overloads(Called::Function(name), *template).is_some())
}
