//! The overload of a call, and its type.

use super::{with_operands, Called, NoOverload, Operand, Referent, Resolution};
use crate::proved::wgsl_core::error::Fail;
use crate::proved::wgsl_standard::callee::{can_be_const_expression, overloads};
use crate::proved::wgsl_standard::forms::expression::is_const_expression;
use crate::proved::wgsl_standard::operand::Operand as Asked;
use crate::proved::wgsl_standard::substitution::built;
use crate::proved::wgsl_standard::{answer, resolved};
use crate::shim::{always, settled, std::alloc::Global};
use crate::syntax::{BinaryOperator, UnaryOperator};
use crate::ty::Type;

type Answer<T> = Result<T, Fail<answer::NoOverload>>;
type Resolved = Result<Resolution, NoOverload>;
type Typed = Result<Operand, NoOverload>;

/// What a binary expression resolves to.
///
/// ```
/// use wgsl_types_proved::{standard::{resolve_binary_op, Operand}, syntax::BinaryOperator::Multiplication};
/// use wgsl_types_proved::Type;
///
/// let matrix = Operand::new(Type::matrix(2, 3, Type::F32));
/// let vector = Operand::new(Type::vector(2, Type::AbstractInt));
/// let product = resolve_binary_op(Multiplication, &matrix, &vector).unwrap();
/// assert_eq!(product.parameters[1], Type::vector(2, Type::F32));
/// assert_eq!(product.result, Some(Operand::new(Type::vector(3, Type::F32))));
/// ```
pub fn resolve_binary_op(operator: BinaryOperator, lhs: &Operand, rhs: &Operand) -> Resolved {
    ask_for(Called::Binary(operator), None, [lhs, rhs].into_iter(), resolution)
}

/// What a unary expression resolves to. `&` and `*` have no overloads: see [`address_of`](super::address_of) and
/// [`indirection`](super::indirection).
///
/// ```
/// use wgsl_types_proved::{standard::{resolve_unary_op, Operand}, syntax::UnaryOperator::LogicalNegation};
/// use wgsl_types_proved::Type;
///
/// let negated = resolve_unary_op(LogicalNegation, &Operand::new(Type::Bool)).unwrap();
/// assert_eq!(negated.result, Some(Operand::new(Type::Bool)));
/// ```
pub fn resolve_unary_op(operator: UnaryOperator, operand: &Operand) -> Resolved {
    ask_for(Called::Unary(operator), None, [operand].into_iter(), resolution)
}

/// What a call of a built-in function resolves to. The template is that of `bitcast<T>(..)`.
///
/// ```
/// use wgsl_types_proved::{standard::{resolve_builtin_fn, Operand}, Type};
///
/// let arguments = [Type::AbstractInt, Type::F32, Type::AbstractFloat].map(Operand::new);
/// let clamp = resolve_builtin_fn("clamp", None, &arguments).unwrap();
/// assert_eq!(clamp.parameters, [Type::F32, Type::F32, Type::F32]);
/// ```
pub fn resolve_builtin_fn(name: &str, template: Option<&Type>, arguments: &[Operand]) -> Resolved {
    ask_for(Called::Function(name), template, arguments.iter(), resolution)
}

/// What a constructor's call resolves to: `vec3(..)`, or with a template `vec3<f32>(..)`, for which `vec3f(..)` stands too. For
/// the constructor of any type see [`construct`](super::construct()): those of arrays and structs have no overloads.
///
/// ```
/// use wgsl_types_proved::{standard::{resolve_ctor, Operand}, Type};
///
/// let arguments = [Operand::new(Type::vector(2, Type::F32)), Operand::new(Type::AbstractInt)];
/// let vector = resolve_ctor("vec3", None, &arguments).unwrap();
/// assert_eq!(vector.result, Some(Operand::new(Type::vector(3, Type::F32))));
/// let vector = resolve_ctor("vec3", Some(&Type::F32), &arguments).unwrap();
/// assert_eq!(vector.parameters, [Type::F32, Type::vector(2, Type::F32), Type::F32]);
/// assert_eq!(resolve_ctor("vec3f", None, &arguments), Ok(vector));
/// ```
pub fn resolve_ctor(name: &str, template: Option<&Type>, arguments: &[Operand]) -> Resolved {
    constructor(name, template, arguments, resolution)
}

/// A binary expression, without what its operands convert to. It is a const-expression if both operands are.
///
/// ```
/// use wgsl_types_proved::{standard::{type_binary_op, Operand}, syntax::BinaryOperator::Addition, Type};
///
/// let (one, x) = (Operand::new(Type::AbstractInt), Operand::new(Type::F32));
/// assert_eq!(type_binary_op(Addition, &one, &x), Ok(x));
/// let two = Operand::constant(Type::F32);
/// assert!(type_binary_op(Addition, &one, &two).unwrap().is_constant);
/// let truth = Operand::new(Type::Bool);
/// let refused = type_binary_op(Addition, &truth, &truth).unwrap_err();
/// assert_eq!(refused.to_string(), "no overload of `+` takes (bool, bool)");
/// ```
pub fn type_binary_op(operator: BinaryOperator, lhs: &Operand, rhs: &Operand) -> Typed {
    ask_for(Called::Binary(operator), None, [lhs, rhs].into_iter(), value)
}

/// A unary expression, which is a const-expression if its operand is. `&` and `*` have no overloads: see
/// [`address_of`](super::address_of) and [`indirection`](super::indirection).
///
/// ```
/// use wgsl_types_proved::{standard::{type_unary_op, Operand}, syntax::UnaryOperator::Negation, Type};
///
/// let vector = Operand::new(Type::vector(3, Type::F32));
/// assert_eq!(type_unary_op(Negation, &vector), Ok(vector));
/// assert!(type_unary_op(Negation, &Operand::new(Type::U32)).is_err());
/// ```
pub fn type_unary_op(operator: UnaryOperator, operand: &Operand) -> Typed {
    ask_for(Called::Unary(operator), None, [operand].into_iter(), value)
}

/// A call of a built-in function, or None if it has no value. It is a const-expression if its arguments are; but derivatives,
/// subgroup and quad operations, textures, atomics, `arrayLength` and `workgroupUniformLoad` never are.
///
/// ```
/// use wgsl_types_proved::{standard::{type_builtin_fn, Operand}, Type};
///
/// let two = [Operand::new(Type::AbstractInt)];
/// assert_eq!(type_builtin_fn("sqrt", None, &two), Ok(Some(Operand::new(Type::AbstractFloat))));
/// let x = [Operand::constant(Type::F32)];
/// let (root, slope) = (type_builtin_fn("sqrt", None, &x), type_builtin_fn("dpdx", None, &x));
/// assert_eq!((root, slope), (Ok(Some(x[0].clone())), Ok(Some(Operand::new(Type::F32)))));
/// assert_eq!(type_builtin_fn("bitcast", Some(&Type::U32), &x).unwrap().unwrap().ty, Type::U32);
/// assert_eq!(type_builtin_fn("workgroupBarrier", None, &[]), Ok(None));
/// ```
pub fn type_builtin_fn(
    name: &str,
    template: Option<&Type>,
    arguments: &[Operand],
) -> Result<Option<Operand>, NoOverload> {
    ask_for(Called::Function(name), template, arguments.iter(), result)
}

/// What a constructor makes, by its name and perhaps its template, or by an alias as `vec3f`: a const-expression if its arguments
/// are. For the constructor of any type see [`construct`](super::construct()): those of arrays and structs have no overloads.
///
/// ```
/// use wgsl_types_proved::{standard::{type_ctor, Operand}, Type};
///
/// let one = [Operand::new(Type::AbstractInt)];
/// let ones = Operand::constant(Type::vector(3, Type::F16));
/// assert_eq!(type_ctor("vec3", Some(&Type::F16), &one), Ok(ones.clone()));
/// assert_eq!(type_ctor("vec3h", None, &one), Ok(ones));
/// ```
pub fn type_ctor(name: &str, template: Option<&Type>, arguments: &[Operand]) -> Typed {
    constructor(name, template, arguments, value)
}

/// Asks about a constructor, for an alias about the one that it stands for.
fn constructor<'a, T>(
    name: &str,
    template: Option<&Type>,
    arguments: &'a [Operand],
    ask: impl FnOnce(Called<'_>, Option<&Type>, &[Asked<'a>]) -> Answer<T>,
) -> Result<T, NoOverload> {
    match aliased(name) {
        Some((name, of)) if template.is_none() => {
            ask_for(Called::Constructor(name), Some(&of), arguments.iter(), ask)
        }
        _ => ask_for(Called::Constructor(name), template, arguments.iter(), ask),
    }
}

/// The constructor and the template that an alias stands for: `vec3` and `f32` for `vec3f`. No other constructor has a name of
/// five letters, or of seven.
fn aliased(name: &str) -> Option<(&str, Type)> {
    if !matches!(name.len(), 5 | 7) {
        return None;
    }
    let (name, letter) = name.split_at_checked(name.len() - 1)?;
    let of = match letter {
        "f" => Type::F32,
        "h" => Type::F16,
        "i" if name.starts_with("vec") => Type::I32,
        "u" if name.starts_with("vec") => Type::U32,
        _ => return None,
    };
    overloads(Called::Constructor(name), true).map(|_| (name, of))
}

/// Asks for the resolution of a call.
fn resolution(
    called: Called<'_>,
    template: Option<&Type>,
    operands: &[Asked<'_>],
) -> Answer<Resolution> {
    let call = resolved::resolve_callee(Global, called, template, operands)?;
    let result = call.result.map(|ty| made(ty, called, operands));
    Ok(Resolution { overload: call.index, parameters: call.parameters, result })
}

fn result(
    called: Called<'_>,
    template: Option<&Type>,
    operands: &[Asked<'_>],
) -> Answer<Option<Operand>> {
    let found = answer::type_of_call(Global, called, template, operands)?;
    Ok(always(built(Global, found)).map(|ty| made(ty, called, operands)))
}

fn value(called: Called<'_>, template: Option<&Type>, operands: &[Asked<'_>]) -> Answer<Operand> {
    match result(called, template, operands)? {
        Some(value) => Ok(value),
        None => unreachable!("operators and constructors return a value"),
    }
}

/// What a call of that type makes of its operands.
fn made(ty: Type, called: Called<'_>, operands: &[Asked<'_>]) -> Operand {
    let made = made_of(operands, ty);
    Operand { is_constant: made.is_constant && can_be_const_expression(called), ..made }
}

/// A value of that type, which is a const-expression if each operand is one.
pub(super) fn made_of(operands: &[Asked<'_>], ty: Type) -> Operand {
    let is_constant = operands.iter().all(is_const_expression);
    Operand { ty, is_constant, referent: Referent::Whole }
}

#[inline]
fn ask_for<'a, T>(
    called: Called<'_>,
    template: Option<&Type>,
    operands: impl ExactSizeIterator<Item = &'a Operand> + Clone,
    ask: impl FnOnce(Called<'_>, Option<&Type>, &[Asked<'a>]) -> Answer<T>,
) -> Result<T, NoOverload> {
    let found = with_operands(operands.clone(), |asked| settled(ask(called, template, asked)));
    found.map_err(|reason| NoOverload::new(called, template, operands, reason))
}
