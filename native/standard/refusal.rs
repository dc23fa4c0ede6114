//! Calls that no overload takes.

use super::{owned, with_operands, Called, Callee, Operand};
use crate::proved::wgsl_core::ty::show::ShownType;
use crate::proved::wgsl_standard::answer;
use crate::proved::wgsl_standard::explanation::{self, Note};
use crate::proved::wgsl_standard::meant::{meant, unknown_name};
use crate::proved::wgsl_standard::operand::loaded;
use crate::proved::wgsl_standard::overload::parameters_of;
use crate::proved::wgsl_standard::refusal::Mismatch as Proved;
use crate::proved::wgsl_standard::signature::Signature;
use crate::proved::wgsl_standard::written::takes_either;
use crate::shim::{always, std::alloc::Global};
use crate::syntax::RuleSet;
use crate::ty::Type;
use alloc::string::{String, ToString};
use alloc::vec::Vec;
use core::fmt;

/// No overload takes the operands, or the template is abstract or a reference; or nothing has the name.
///
/// It displays as ``no overload of `+` takes (bool, i32)``, with references as the types that they load as, or as ``nothing has
/// the name `mxi`; did you mean `mix`?``. A compiler may try calls and drop what is refused, so nothing is
/// explained before [`explanations`](NoOverload::explanations) asks.
#[derive(Clone, Debug, PartialEq, Eq, Hash)]
#[non_exhaustive]
pub struct NoOverload {
    /// What is called.
    pub callee: Callee,
    /// The template, if the call has one.
    pub template: Option<Type>,
    /// The operands, in order.
    pub operands: Vec<Operand>,
    /// Whether nothing has the name: no built-in function, no constructor and no other predeclared type.
    pub is_unknown_name: bool,
}

impl NoOverload {
    #[cold]
    pub(super) fn new<'a>(
        called: Called<'_>,
        template: Option<&Type>,
        operands: impl Iterator<Item = &'a Operand>,
        reason: answer::NoOverload,
    ) -> NoOverload {
        NoOverload {
            callee: owned(called),
            template: template.cloned(),
            operands: operands.cloned().collect(),
            is_unknown_name: matches!(reason, answer::NoOverload::UnknownName),
        }
    }

    /// If nothing has the name, the name that may be meant: that of a function or a constructor at most two letters away, or
    /// WGSL's word for a type of HLSL, GLSL or Metal.
    ///
    /// ```
    /// use wgsl_types_proved::standard::{type_builtin_fn, type_ctor};
    ///
    /// let refused = type_builtin_fn("nrmalize", None, &[]).unwrap_err();
    /// assert_eq!((refused.is_unknown_name, refused.meant()), (true, Some("normalize")));
    /// assert_eq!(type_ctor("float3", None, &[]).unwrap_err().meant(), Some("vec3f"));
    /// ```
    pub fn meant(&self) -> Option<&str> {
        meant(unknown_name(self.callee.called())?)
    }

    /// The reasons, one per overload, as [`explain`] returns them. Each call computes them again.
    ///
    /// ```
    /// use wgsl_types_proved::standard::{type_binary_op, Mismatch, Operand};
    /// use wgsl_types_proved::{syntax::BinaryOperator::ShiftLeft, Type};
    ///
    /// let one = Operand::new(Type::I32);
    /// let refused = type_binary_op(ShiftLeft, &one, &one).unwrap_err();
    /// let second = Mismatch::Argument { index: 1, ty: Type::I32 };
    /// assert!(refused.explanations().iter().all(|why| why.mismatch == second));
    /// ```
    pub fn explanations(&self) -> Vec<Explanation> {
        explain(&self.callee, self.template.as_ref(), &self.operands)
    }
}

/// Why an overload doesn't take operands. It displays as `dot(vecN<T>, vecN<T>) -> T, T: number: argument 2 is f32`.
#[derive(Clone, Debug, PartialEq, Eq, Hash)]
#[non_exhaustive]
pub struct Explanation {
    /// The index of the overload in [`overloads`](super::overloads) of the name or the operator. If it has two texts, that of
    /// the text for vectors if the first operand is one, and else of that for scalars.
    pub overload: usize,
    /// What it doesn't take.
    pub mismatch: Mismatch,
    text: String,
}

/// What an overload doesn't take.
#[derive(Clone, Debug, PartialEq, Eq, Hash)]
pub enum Mismatch {
    /// The number of arguments.
    Count {
        /// How many it takes.
        takes: usize,
        /// How many there are.
        given: usize,
    },
    /// The first argument that it doesn't take after those before it.
    Argument {
        /// Its index, from 0.
        index: usize,
        /// Its type, of a reference that can be read the type that it loads as.
        ty: Type,
    },
    /// The template, which is this type.
    Template(Type),
}

impl Explanation {
    fn new(note: &Note<'_>, template: Option<&Type>, operands: &[Operand]) -> Explanation {
        let Signature { index, overload, of_vectors, .. } = note.signature;
        let is_second = of_vectors && takes_either(parameters_of(overload));
        let before = usize::from(template.is_some());
        let mismatch = match (note.mismatch, template) {
            (Proved::Count(takes), _) => {
                Mismatch::Count { takes: takes - before, given: operands.len() }
            }
            (Proved::Argument(0), Some(template)) => Mismatch::Template(template.clone()),
            (Proved::Argument(index), _) => {
                let index = index - before;
                Mismatch::Argument { index, ty: loaded(&operands[index].ty).clone() }
            }
        };
        Explanation { overload: index + usize::from(is_second), mismatch, text: note.to_string() }
    }
}

impl fmt::Display for Explanation {
    fn fmt(&self, f: &mut fmt::Formatter<'_>) -> fmt::Result {
        f.write_str(&self.text)
    }
}

/// Why overloads don't take operands, one reason for each that doesn't: the number of arguments that it takes if that is another
/// one, and else the first argument that it doesn't take after those before it. None if nothing has the name, or if the template
/// is abstract or a reference.
///
/// The nearest overloads come first: those with the fewest arguments too many or missing, then those that take the most arguments
/// before one that doesn't fit, then in the order of [`overloads`](super::overloads).
///
/// ```
/// use wgsl_types_proved::{standard::{explain, Callee, Mismatch, Operand}, Type};
///
/// let called = Callee::Function("distance".to_string());
/// let reasons = explain(&called, None, &[Operand::new(Type::F32)]);
/// assert_eq!(reasons[0].mismatch, Mismatch::Count { takes: 2, given: 1 });
/// assert_eq!(reasons[0].to_string(), "distance(T, T) -> T, T: float: takes 2 arguments, not 1");
///
/// let mix = Callee::Function("mix".to_string());
/// let arguments = ["vec2f", "vec2f", "bool"].map(|text| Operand::new(text.parse().unwrap()));
/// let nearest = &explain(&mix, None, &arguments)[0];
/// assert_eq!((nearest.overload, &nearest.mismatch), (1, &Mismatch::Argument { index: 2, ty: Type::Bool }));
/// ```
pub fn explain(callee: &Callee, template: Option<&Type>, operands: &[Operand]) -> Vec<Explanation> {
    with_operands(operands.iter(), |asked| {
        let notes = always(explanation::explain(Global, callee.called(), template, asked));
        notes.iter().map(|note| Explanation::new(note, template, operands)).collect()
    })
}

impl fmt::Display for NoOverload {
    fn fmt(&self, f: &mut fmt::Formatter<'_>) -> fmt::Result {
        if self.is_unknown_name {
            write!(f, "nothing has the name `{}`", self.callee)?;
            return self.meant().map_or(Ok(()), |name| write!(f, "; did you mean `{name}`?"));
        }
        write!(f, "no overload of `{}", self.callee)?;
        if let Some(template) = &self.template {
            write!(f, "<{template}>")?;
        }
        f.write_str("` takes (")?;
        for (index, operand) in self.operands.iter().enumerate() {
            let separator = if index == 0 { "" } else { ", " };
            let shown = ShownType { ty: loaded(&operand.ty), rules: RuleSet::Standard };
            write!(f, "{separator}{shown}")?;
        }
        f.write_str(")")
    }
}

impl core::error::Error for NoOverload {}
