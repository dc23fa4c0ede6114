//! The types of expressions and statements by WGSL's own rules. First its overloads: which one an operator, a call or a
//! constructor resolves to, what its operands convert to, what it returns, and why no overload takes the operands (WGSL,
//! "Overload Resolution"). Then what has none: members, indexes, loads, `&` and `*`, declarations, assignments, lists of values, conditions,
//! returned values.
//!
//! The calls of [`builtin`](crate::builtin) answer by the rules of wgsl-types 0.3.2 instead, which differ from WGSL's. naga's
//! ray queries have no overloads: ask `builtin`.
//!
//! Pass what a compiler knows of an expression: its type, and whether it is a const-expression. Don't load references
//! or make types concrete first. The type of a variable is a reference; in an operator or a call, a reference that can
//! be read counts as the type that it loads as.
//!
//! ```
//! use wgsl_types_proved::standard::{resolve_builtin_fn, type_unary_op, Mismatch, Operand};
//! use wgsl_types_proved::{syntax::UnaryOperator::Negation, Type};
//!
//! let (int, x) = (Operand::new(Type::AbstractInt), Operand::new(Type::F32));
//! let v = Operand::new("vec3<f32>".parse()?);
//! assert_eq!(type_unary_op(Negation, &v).as_ref(), Ok(&v));
//!
//! let call = resolve_builtin_fn("ldexp", None, &[x, int.clone()]).unwrap();
//! assert_eq!(call.parameters, [Type::F32, Type::I32]);
//!
//! let refused = resolve_builtin_fn("dot", None, &[v, int]).unwrap_err();
//! assert_eq!(refused.to_string(), "no overload of `dot` takes (vec3<f32>, AbstractInt)");
//! let [why] = &refused.explanations()[..] else { panic!() };
//! assert_eq!(why.mismatch, Mismatch::Argument { index: 1, ty: Type::AbstractInt });
//! assert_eq!(why.to_string(), "dot(vecN<T>, vecN<T>) -> T, T: number: argument 2 is AbstractInt");
//! # Ok::<(), wgsl_types_proved::ty::SpellingError>(())
//! ```
//!
//! `let x = s.v[i];`, where `s` is a variable of a storage buffer:
//!
//! ```
//! use wgsl_types_proved::standard::{declare, type_of_index, type_of_member, Declaration, Operand, Refusal};
//! use wgsl_types_proved::{syntax::{AccessMode, AddressSpace}, ty::StructType, Type};
//!
//! let s = StructType::new("S", [("v", Type::vector(3, Type::F32))]);
//! let s = Type::Ref(AddressSpace::Storage, Box::new(Type::from(s)), AccessMode::Read);
//! let v = type_of_member(&Operand::new(s), "v")?;
//! let element = type_of_index(&v, &Operand::new(Type::U32))?;
//! assert_eq!(element.ty.to_string(), "ref<storage, f32, read>");
//! assert_eq!(declare(Declaration::Let, &element, None), Ok(Type::F32));
//! # Ok::<(), Refusal>(())
//! ```

mod construct;
mod expressions;
mod form_refusal;
mod misfit;
mod overload;
mod refusal;
mod resolve;
mod statements;

use crate::proved::wgsl_standard as proved;
pub use crate::proved::wgsl_standard::forms::form::Referent;
use crate::syntax::{BinaryOperator, UnaryOperator};
use crate::ty::Type;
use alloc::{string::String, vec::Vec};
#[cfg(feature = "text")]
pub(crate) use construct::constructor_of;
pub use construct::{construct, NotConstructed};
use core::fmt;
pub use expressions::{address_of, indirection, load, type_of_index, type_of_member};
use form_refusal::built;
pub use form_refusal::Refusal;
pub use misfit::Misfit;
pub use overload::{functions, is_function, overloads, Overload};
pub use refusal::{explain, Explanation, Mismatch, NoOverload};
pub use resolve::{resolve_binary_op, resolve_builtin_fn, resolve_ctor, resolve_unary_op};
pub use resolve::{type_binary_op, type_builtin_fn, type_ctor, type_unary_op};
pub use statements::{assign, assign_by, construct_array, construct_array_of, construct_struct};
pub use statements::{condition, declare, discard, fit, increment, initialized_variable};
pub use statements::{override_without_value, return_value, switch_type, variable, Declaration};

/// An operand of an operator, or an argument of a call.
#[derive(Clone, Debug, PartialEq, Eq, Hash)]
pub struct Operand {
    /// The type of the expression, not loaded and not made concrete.
    pub ty: Type,
    /// Whether it is a const-expression. If one operand isn't, no operand converts to an abstract type.
    pub is_constant: bool,
    /// What it refers to, if it is a reference to components of a vector. Its type doesn't say so.
    pub referent: Referent,
}

impl Operand {
    /// An expression of that type. It is a const-expression exactly if the type is abstract, as no other has one.
    ///
    /// ```
    /// use wgsl_types_proved::{standard::Operand, Type};
    ///
    /// assert!(Operand::new(Type::AbstractInt).is_constant);
    /// assert!(!Operand::new(Type::I32).is_constant);
    /// ```
    pub fn new(ty: Type) -> Operand {
        let is_constant = ty.is_abstract();
        Operand { ty, is_constant, referent: Referent::Whole }
    }

    /// A const-expression of that type, such as a literal, a constant, or what is computed from these alone.
    ///
    /// ```
    /// use wgsl_types_proved::{standard::{type_binary_op, Operand}, syntax::BinaryOperator::ShiftLeft, Type};
    ///
    /// let one = Operand::constant(Type::AbstractInt);
    /// let shifted = |by| type_binary_op(ShiftLeft, &one, &by);
    /// assert_eq!(shifted(Operand::constant(Type::U32)), Ok(one.clone()));
    /// assert_eq!(shifted(Operand::new(Type::U32)), Ok(Operand::new(Type::I32)));
    /// ```
    pub fn constant(ty: Type) -> Operand {
        Operand { ty, is_constant: true, referent: Referent::Whole }
    }

    /// The type as requests show it: of a swizzle that of its value, although it can be assigned to.
    ///
    /// ```
    /// use wgsl_types_proved::standard::{assign, type_of_member, Operand};
    ///
    /// let v = Operand::new("ref<function, vec3<f32>, read_write>".parse()?);
    /// let swizzle = type_of_member(&v, "zx").unwrap();
    /// assert_eq!(swizzle.ty, "ref<function, vec2<f32>, read_write>".parse()?);
    /// assert_eq!(*swizzle.shown_type(), "vec2<f32>".parse()?);
    /// assert_eq!(assign(&swizzle, &swizzle), Ok("vec2<f32>".parse()?));
    /// # Ok::<(), wgsl_types_proved::ty::SpellingError>(())
    /// ```
    pub fn shown_type(&self) -> &Type {
        match (self.referent, &self.ty) {
            (Referent::Swizzle, Type::Ref(_, value, _)) => value,
            (_, ty) => ty,
        }
    }

    #[inline(always)]
    fn proved(&self) -> proved::operand::Operand<'_> {
        proved::operand::Operand::of(&self.ty, self.is_constant)
    }

    /// As `proved`, for what asks the type for its form first.
    #[inline(always)]
    fn given(&self) -> proved::operand::Operand<'_> {
        let ty = proved::operand::OperandType::Any(&self.ty);
        proved::operand::Operand { ty, is_constant: self.is_constant }
    }
}

/// An expression of that type, as [`Operand::new`] makes it.
impl From<Type> for Operand {
    fn from(ty: Type) -> Operand {
        Operand::new(ty)
    }
}

/// What a call resolves to: the overload, and what a compiler converts the operands to.
#[derive(Clone, Debug, PartialEq, Eq, Hash)]
#[non_exhaustive]
pub struct Resolution {
    /// The index of the overload in [`overloads`] of the name or the operator. If the overload takes scalars or vectors and so
    /// has two texts, it is that of the text for scalars or of that for vectors, as the parameters are.
    ///
    /// ```
    /// use wgsl_types_proved::standard::{overloads, resolve_binary_op, Operand};
    /// use wgsl_types_proved::{syntax::BinaryOperator::Subtraction, Type};
    ///
    /// let vector = Operand::new(Type::vector(3, Type::F32));
    /// let difference = resolve_binary_op(Subtraction, &vector, &vector).unwrap();
    /// let text = &overloads("-")[difference.overload].text;
    /// assert_eq!(text, "-(vecN<T>, vecN<T>) -> vecN<T>, T: number");
    /// ```
    pub overload: usize,
    /// The types to which the operands convert, in order. With a template, its type stands first.
    pub parameters: Vec<Type>,
    /// The result, or None for a call without a value.
    pub result: Option<Operand>,
}

/// What is called. It displays as the operator or the name.
#[derive(Clone, Debug, PartialEq, Eq, Hash)]
pub enum Callee {
    /// A unary operator.
    Unary(UnaryOperator),
    /// A binary operator.
    Binary(BinaryOperator),
    /// A built-in function.
    Function(String),
    /// A constructor: `f32`, `vec3`, `mat2x2`, .. An alias has no overloads of its own: `vec3f` is `vec3` with the template `f32`.
    Constructor(String),
}

/// A `Callee` whose name is borrowed.
pub(crate) use proved::callee::Callee as Called;

fn owned(called: Called<'_>) -> Callee {
    match called {
        Called::Unary(operator) => Callee::Unary(operator),
        Called::Binary(operator) => Callee::Binary(operator),
        Called::Function(name) => Callee::Function(name.into()),
        Called::Constructor(name) => Callee::Constructor(name.into()),
    }
}

impl Callee {
    fn called(&self) -> Called<'_> {
        match self {
            Callee::Unary(operator) => Called::Unary(*operator),
            Callee::Binary(operator) => Called::Binary(*operator),
            Callee::Function(name) => Called::Function(name),
            Callee::Constructor(name) => Called::Constructor(name),
        }
    }
}

/// Calls `ask` with the operands as the proved sources have them. Up to four are on the stack.
fn with_operands<'a, T>(
    operands: impl ExactSizeIterator<Item = &'a Operand>,
    ask: impl FnOnce(&[proved::operand::Operand<'a>]) -> T,
) -> T {
    let count = operands.len();
    let mut few = [proved::operand::Operand::of(&Type::Bool, false); 4];
    match few.get_mut(..count) {
        Some(few) => {
            few.iter_mut().zip(operands).for_each(|(to, operand)| *to = operand.proved());
            ask(few)
        }
        None => ask(&operands.map(Operand::proved).collect::<Vec<_>>()),
    }
}

impl fmt::Display for Callee {
    fn fmt(&self, f: &mut fmt::Formatter<'_>) -> fmt::Result {
        match self {
            Callee::Unary(operator) => operator.fmt(f),
            Callee::Binary(operator) => operator.fmt(f),
            Callee::Function(name) | Callee::Constructor(name) => f.write_str(name),
        }
    }
}
