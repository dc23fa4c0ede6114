//! Declarations, assignments, conditions, returned values, and lists of values.

use super::expressions::built_form;
use super::resolve::made_of;
use super::{built, with_operands, Misfit, Operand, Refusal};
use crate::proved::{wgsl_standard::forms as proved, wgsl_standard::forms::lists::Taker};
use crate::shim::{always, std::alloc::Global};
use crate::syntax::{AccessMode, AddressSpace, AssignmentOperator};
use crate::ty::Type;
pub use proved::declare::Declaration;

type Typed = Result<Type, Refusal>;
type Made = Result<Operand, Misfit>;

/// The type of what `let`, `const` or `override` declares with a value, and perhaps with a type (WGSL, "Value Declarations").
///
/// Without a type it is that of the value: of `let` and `override` made concrete, of `const` as it is. The first of these
/// refuses:
///
/// | | |
/// |---|---|
/// | `let x = v;` | the load; [`NotConstructible`](Refusal::NotConstructible), unless it is a pointer or a handle |
/// | `let x: T = v;` | `NotConstructible` if `T` is abstract, or nothing that a `let` can be; the load; [`Conversion`](Refusal::Conversion) |
/// | `const x = v;` | [`NotConst`](Refusal::NotConst); `NotConstructible` |
/// | `const x: T = v;` | `NotConst`; `NotConstructible` of `T`; `Conversion` |
/// | `override x = v;`, `override x: T = v;` | `NotConst`; [`NotScalar`](Refusal::NotScalar); `Conversion` |
///
/// ```
/// use wgsl_types_proved::{standard::{declare, Declaration, Operand, Refusal}, Type};
///
/// let ones = Operand::new(Type::array(Some(3), Type::AbstractInt));
/// assert_eq!(declare(Declaration::Let, &ones, None), Ok(Type::array(Some(3), Type::I32)));
/// let x = Operand::new(Type::I32);
/// let refused = declare(Declaration::Let, &x, Some(&Type::F32));
/// assert_eq!(refused, Err(Refusal::Conversion(Type::I32, Type::F32)));
/// assert_eq!(declare(Declaration::Const, &x, None), Err(Refusal::NotConst));
/// ```
pub fn declare(declaration: Declaration, value: &Operand, ty: Option<&Type>) -> Typed {
    Ok(built(proved::declare::declare(declaration, &value.proved(), ty)?))
}

/// The type of `override x: T;`, which has no value: [`Refusal::NotScalar`] if it is not `bool`, `i32`, `u32`, `f32` or
/// `f16`.
///
/// ```
/// use wgsl_types_proved::{standard::override_without_value, Type};
///
/// assert_eq!(override_without_value(&Type::F16), Ok(Type::F16));
/// assert!(override_without_value(&Type::vector(3, Type::F32)).is_err());
/// ```
pub fn override_without_value(ty: &Type) -> Typed {
    Ok(built(proved::declare::override_without_value(ty)?))
}

/// The type of a variable without a value, `var<storage> x: T;` (WGSL, "Variable and Value Declarations"): the reference that
/// its name is.
///
/// Without an access mode it is that of WGSL: `read_write` in `function`, `private` and `workgroup`, else `read`. The first of
/// these refuses: [`Refusal::AccessMode`] of a mode that is said for another space than `storage`, or is neither `read` nor
/// `read_write`; [`Refusal::NotConstructible`] in `function` and `private`, elsewhere [`Refusal::NotInSpace`], if no variable
/// of the space holds the type.
///
/// ```
/// use wgsl_types_proved::{standard::{variable, Refusal}, syntax::{AccessMode, AddressSpace}, Type};
///
/// let counter: Type = "atomic<u32>".parse()?;
/// let stored = variable(AddressSpace::Storage, Some(AccessMode::ReadWrite), &counter);
/// assert_eq!(stored, Ok("ref<storage, atomic<u32>, read_write>".parse()?));
/// let refused = variable(AddressSpace::Storage, None, &counter);
/// assert_eq!(refused, Err(Refusal::NotInSpace(AddressSpace::Storage, counter)));
/// # Ok::<(), wgsl_types_proved::ty::SpellingError>(())
/// ```
pub fn variable(space: AddressSpace, access: Option<AccessMode>, ty: &Type) -> Typed {
    Ok(built_form(proved::variable::variable(space, access, ty)?))
}

/// The type of a variable with a value, and perhaps with a type, `var x: T = v;` (WGSL, "Variable and Value Declarations"): the
/// reference that its name is.
///
/// The first of these refuses: [`Refusal::AccessMode`]; [`Refusal::Initialized`] outside of `function` and `private`;
/// [`Refusal::NotConst`] in `private`; [`Refusal::NotConstructible`] of the type; the load of the value; `NotConstructible` of
/// what was loaded, if there is no type; [`Refusal::Conversion`].
///
/// ```
/// use wgsl_types_proved::standard::{initialized_variable, Operand, Refusal};
/// use wgsl_types_proved::{syntax::AddressSpace::{Function, Private}, Type};
///
/// let one = Operand::new(Type::AbstractInt);
/// let x = initialized_variable(Function, None, &one, None);
/// assert_eq!(x, Ok("ref<function, i32, read_write>".parse()?));
/// let x = initialized_variable(Private, None, &one, Some(&Type::F32));
/// assert_eq!(x, Ok("ref<private, f32, read_write>".parse()?));
/// let refused = initialized_variable(Private, None, &Operand::new(Type::I32), None);
/// assert_eq!(refused, Err(Refusal::NotConst));
/// # Ok::<(), wgsl_types_proved::ty::SpellingError>(())
/// ```
pub fn initialized_variable(
    space: AddressSpace,
    access: Option<AccessMode>,
    value: &Operand,
    ty: Option<&Type>,
) -> Typed {
    let found = proved::variable::initialized_variable(space, access, &value.proved(), ty)?;
    Ok(built_form(found))
}

/// The type of the value that `_ = x;` takes (WGSL, "Phony Assignment"), as of `let y = x;`.
///
/// ```
/// use wgsl_types_proved::{standard::{discard, Operand}, Type};
///
/// assert_eq!(discard(&Operand::new(Type::AbstractFloat)), Ok(Type::F32));
/// ```
pub fn discard(x: &Operand) -> Typed {
    Ok(built(proved::declare::discard(&x.proved())?))
}

/// The type to which `x = y;` writes (WGSL, "Simple Assignment"), that of what `x` refers to.
///
/// The first of these refuses: [`Refusal::NotReference`]; [`Refusal::NotWrite`]; [`Refusal::NotConstructible`] of what `x`
/// refers to; the load of `y`; [`Refusal::WriteRefType`].
///
/// ```
/// use wgsl_types_proved::{standard::{assign, Operand, Refusal}, Type};
///
/// let x = Operand::new("ref<private, f32, read_write>".parse()?);
/// assert_eq!(assign(&x, &Operand::new(Type::AbstractInt)), Ok(Type::F32));
/// let refused = assign(&x, &Operand::new(Type::I32));
/// assert_eq!(refused, Err(Refusal::WriteRefType(Type::I32, Type::F32)));
/// # Ok::<(), wgsl_types_proved::ty::SpellingError>(())
/// ```
#[inline(always)]
pub fn assign(x: &Operand, y: &Operand) -> Typed {
    Ok(copied(proved::assign::assign(&x.given(), &y.proved())?))
}

/// The type to which `x += y;` and its like write (WGSL, "Compound Assignment"); with `=` as [`assign`].
///
/// The first of these refuses: [`Refusal::NotReference`]; [`Refusal::NotReadWrite`]; [`Refusal::Binary`] if no overload of
/// the operator takes a value of what `x` refers to and `y`; [`Refusal::WriteRefType`] with the result, if it is another type.
///
/// ```
/// use wgsl_types_proved::standard::{assign_by, Operand, Refusal};
/// use wgsl_types_proved::{syntax::AssignmentOperator::{PlusEqual, TimesEqual}, Type};
///
/// let v = Operand::new("ref<function, vec3<f32>, read_write>".parse()?);
/// assert_eq!(assign_by(PlusEqual, &v, &Operand::new(Type::AbstractInt)), Ok(Type::vector(3, Type::F32)));
/// let refused = assign_by(TimesEqual, &v, &Operand::new(Type::matrix(2, 3, Type::F32)));
/// let (vec2, vec3) = (Type::vector(2, Type::F32), Type::vector(3, Type::F32));
/// assert_eq!(refused, Err(Refusal::WriteRefType(vec2, vec3)));
/// # Ok::<(), wgsl_types_proved::ty::SpellingError>(())
/// ```
pub fn assign_by(operator: AssignmentOperator, x: &Operand, y: &Operand) -> Typed {
    Ok(copied(proved::assign::assign_by(operator, &x.given(), &y.proved())?))
}

/// The type of what `x++;` and `x--;` count (WGSL, "Increment and Decrement Statements").
///
/// The first of these refuses: [`Refusal::NotReference`]; [`Refusal::NotReadWrite`]; [`Refusal::NotInteger`] if `x` refers
/// to something else than `i32` and `u32`.
///
/// ```
/// use wgsl_types_proved::{standard::{increment, Operand, Refusal}, Type};
///
/// let count = Operand::new("ref<function, u32, read_write>".parse()?);
/// assert_eq!(increment(&count), Ok(Type::U32));
/// assert_eq!(increment(&Operand::new(Type::U32)), Err(Refusal::NotReference(Type::U32)));
/// # Ok::<(), wgsl_types_proved::ty::SpellingError>(())
/// ```
pub fn increment(x: &Operand) -> Typed {
    Ok(copied(proved::assign::increment(&x.given())?))
}

/// The type of the condition of `if`, `for`, `while`, `break if` or `const_assert`, `bool` (WGSL, "Control Flow"). Refused by the
/// load, or by [`Refusal::NotCondition`].
///
/// ```
/// use wgsl_types_proved::{standard::{condition, Operand}, Type};
///
/// assert_eq!(condition(&Operand::new("ref<private, bool, read_write>".parse()?)), Ok(Type::Bool));
/// let refused = condition(&Operand::new(Type::U32)).unwrap_err();
/// assert_eq!(refused.to_string(), "the condition must be `bool`, not `u32`");
/// # Ok::<(), wgsl_types_proved::ty::SpellingError>(())
/// ```
pub fn condition(x: &Operand) -> Typed {
    Ok(built(proved::flow::condition(&x.proved())?))
}

/// The type that a function returns, if `return x;` gives a value of it (WGSL, "Return Statement").
///
/// The first of these refuses: [`Refusal::NotConstructible`] of the type; the load; [`Refusal::NotReturned`] of a value that
/// doesn't convert to it.
///
/// ```
/// use wgsl_types_proved::{standard::{return_value, Operand}, Type};
///
/// assert_eq!(return_value(&Operand::new(Type::AbstractInt), &Type::F32), Ok(Type::F32));
/// let refused = return_value(&Operand::new(Type::U32), &Type::F32).unwrap_err();
/// assert_eq!(refused.to_string(), "the returned value must be `f32`, not `u32`");
/// ```
pub fn return_value(x: &Operand, ty: &Type) -> Typed {
    Ok(built(proved::flow::return_value(&x.proved(), ty)?))
}

/// Whether values are taken by the parameters of a function with this name (WGSL, "Function Call Expression").
///
/// The first of these refuses: [`Refusal::NotConstructible`] of a parameter's type that is abstract, or neither
/// constructible nor a pointer nor a handle; [`Refusal::ParamCount`]; for the first value that doesn't fit, its load or
/// [`Refusal::ParamType`].
///
/// ```
/// use wgsl_types_proved::{standard::{fit, Operand, Refusal}, Type};
///
/// let (one, x) = (Operand::new(Type::AbstractInt), Operand::new("ref<private, i32, read_write>".parse()?));
/// assert_eq!(fit("f", &[one, x.clone()], &[Type::F32, Type::I32]), Ok(()));
/// let refused = fit("f", &[x.clone(), x], &[Type::I32, Type::Bool]).unwrap_err();
/// assert_eq!(refused.refusal, Refusal::ParamType(Type::Bool, Type::I32));
/// assert_eq!(refused.index, Some(1));
/// # Ok::<(), wgsl_types_proved::ty::SpellingError>(())
/// ```
pub fn fit(name: &str, values: &[Operand], types: &[Type]) -> Result<(), Misfit> {
    with_operands(values.iter(), |values| {
        proved::lists::fit(Taker::Function(name), values, types)
            .map_err(|refusal| Misfit::of_types(refusal.into(), values, |index| types.get(index)))
    })
}

/// What the constructor of a struct makes: the struct (WGSL, "Value Constructor Built-in Functions"). Without values
/// it is the zero value.
///
/// The first of these refuses: [`Refusal::NotConstructible`], also of a type that is no struct;
/// [`Refusal::ParamCount`]; for the first value that doesn't fit its member, its load or [`Refusal::ParamType`].
///
/// ```
/// use wgsl_types_proved::{standard::{construct_struct, Operand, Refusal}, ty::StructType, Type};
///
/// let light = Type::from(StructType::new("Light", [("power", Type::F32), ("on", Type::Bool)]));
/// let values = [Type::AbstractInt, Type::Bool].map(Operand::new);
/// assert_eq!(construct_struct(&light, &values), Ok(Operand::new(light.clone())));
/// let refused = construct_struct(&light, &values[..1]).unwrap_err();
/// assert_eq!(refused.refusal, Refusal::ParamCount("Light".to_string(), 2, 1));
/// ```
pub fn construct_struct(ty: &Type, values: &[Operand]) -> Made {
    with_operands(values.iter(), |values| match proved::lists::construct_struct(ty, values) {
        Ok(ty) => Ok(made_of(values, copied(ty))),
        Err(refusal) => Err(Misfit::of_types(refusal.into(), values, |index| match ty {
            Type::Struct(s) => Some(&s.members.get(index)?.ty),
            _ => None,
        })),
    })
}

/// What `array(x, y)` makes (WGSL, "Value Constructor Built-in Functions"): its elements have the common type of the
/// values, which is abstract if each of theirs is.
///
/// The first of these refuses: the load of a value; [`Refusal::Builtin`] without values, or if they have no common type;
/// [`Refusal::NotConstructible`] of the common type.
///
/// ```
/// use wgsl_types_proved::{standard::{construct_array, Operand}, Type};
///
/// let values = [Type::AbstractInt, Type::U32].map(Operand::new);
/// assert_eq!(construct_array(&values), Ok(Operand::new(Type::array(Some(2), Type::U32))));
/// let refused = construct_array(&[Type::I32, Type::U32].map(Operand::new)).unwrap_err();
/// assert_eq!(refused.to_string(), "array elements are incompatible");
/// ```
pub fn construct_array(values: &[Operand]) -> Made {
    with_operands(values.iter(), |values| match proved::array::construct_array(values) {
        Ok(array) => Ok(made_of(values, built(array))),
        Err(refusal) => Err(Misfit::of_elements(refusal.into(), values)),
    })
}

/// What `array<T, N>(x, y)` makes (WGSL, "Value Constructor Built-in Functions"). Without values it is the zero value.
///
/// The first of these refuses: [`Refusal::NotConstructible`] of the array, also without a count;
/// [`Refusal::ParamCount`]; for the first value that doesn't fit `T`, its load or [`Refusal::ParamType`].
///
/// ```
/// use wgsl_types_proved::{standard::{construct_array_of, Operand, Refusal}, Type};
///
/// let one = [Operand::new(Type::AbstractInt)];
/// let array = Operand::constant(Type::array(Some(1), Type::F16));
/// assert_eq!(construct_array_of(&Type::F16, Some(1), &one), Ok(array));
/// let refused = construct_array_of(&Type::F16, Some(2), &one).unwrap_err();
/// assert_eq!(refused.refusal, Refusal::ParamCount("array".to_string(), 2, 1));
/// ```
pub fn construct_array_of(element: &Type, count: Option<usize>, values: &[Operand]) -> Made {
    with_operands(values.iter(), |values| {
        match proved::array::construct_array_of(element, count, values) {
            Ok(array) => Ok(made_of(values, built(array))),
            Err(refusal) => Err(Misfit::of_types(refusal.into(), values, |_| Some(element))),
        }
    })
}

/// The type of `switch x { case y: .. }` (WGSL, "Switch Statement"), `i32` or `u32`, to which the selector and the cases
/// convert.
///
/// The first of these refuses: for the selector and then each case its load, or [`Refusal::NotInteger`] if it is not `i32`,
/// `u32` or AbstractInt; [`Refusal::NotConst`] of a case; [`Refusal::Conversion`] if both types are there.
///
/// ```
/// use wgsl_types_proved::{standard::{switch_type, Operand, Refusal}, Type};
///
/// let (one, two) = (Operand::new(Type::AbstractInt), Operand::constant(Type::U32));
/// assert_eq!(switch_type(&one, &[two.clone()]), Ok(Type::U32));
/// let refused = switch_type(&Operand::new(Type::I32), &[one, two]).unwrap_err();
/// assert_eq!(refused.refusal, Refusal::Conversion(Type::U32, Type::I32));
/// assert_eq!(refused.index, Some(1));
/// ```
pub fn switch_type(selector: &Operand, cases: &[Operand]) -> Result<Type, Misfit> {
    let selector = selector.proved();
    with_operands(cases.iter(), |cases| match proved::switch::switch_type(&selector, cases) {
        Ok(scalar) => Ok(Type::from(scalar)),
        Err(refusal) => Err(Misfit::of_cases(refusal.into(), &selector, cases)),
    })
}

/// A copy, by the proved function, which takes fewer instructions than the derived one.
#[inline(always)]
fn copied(ty: &Type) -> Type {
    always(ty.rattle_clone(Global))
}
