//! Members, indexes, loads, `&` and `*`.

use super::{Operand, Referent, Refusal};
use crate::proved::wgsl_standard::forms as proved;
use crate::proved::wgsl_standard::forms::form::{Form, FormType, UnbuiltType};
use crate::shim::{always, std::alloc::Global};
use crate::ty::Type;

/// What `x.name` is (WGSL, "Vector Access Expression", "Structure Access Expression"): a member of a struct, a component of a
/// vector, or several components.
///
/// In memory, behind a reference or a pointer, it is a reference to that part. Several components are one if no letter stands
/// twice, a [swizzle](Referent::Swizzle) that can be assigned to; else they are a value. [`Refusal::Component`] if there is no
/// such part, [`Refusal::NotRead`] if several components can't be loaded.
///
/// ```
/// use wgsl_types_proved::{standard::{type_of_member, Operand, Refusal}, Type};
///
/// let v = Operand::new("ref<storage, vec3<f32>, read>".parse()?);
/// assert_eq!(type_of_member(&v, "z").unwrap().ty, "ref<storage, f32, read>".parse()?);
/// assert_eq!(type_of_member(&v, "zyx").unwrap().ty, v.ty);
/// assert_eq!(type_of_member(&v, "zzz").unwrap().ty, Type::vector(3, Type::F32));
/// let refused = type_of_member(&v, "w").unwrap_err();
/// assert_eq!(refused, Refusal::Component(Type::vector(3, Type::F32), "w".to_string()));
/// # Ok::<(), wgsl_types_proved::ty::SpellingError>(())
/// ```
pub fn type_of_member(x: &Operand, name: &str) -> Result<Operand, Refusal> {
    Ok(expression(proved::member::type_of_member(&x.given(), name)?))
}

/// What `x[index]` is (WGSL, "Vector Access Expression", "Matrix Access Expression", "Array Access Expression"): a component,
/// a column or an element; behind a reference or a pointer a reference to it.
///
/// An abstract value is made concrete first, unless the index is a const-expression. [`Refusal::NotIndexable`] if `x` is
/// something else; then what the load of the index refuses; then [`Refusal::NotInteger`] if it is not `i32`, `u32` or
/// AbstractInt.
///
/// ```
/// use wgsl_types_proved::{standard::{type_of_index, Operand}, Type};
///
/// let (matrix, i) = (Operand::new(Type::matrix(2, 3, Type::F32)), Operand::new(Type::U32));
/// assert_eq!(type_of_index(&matrix, &i).unwrap().ty, Type::vector(3, Type::F32));
/// let list = Operand::new(Type::array(Some(2), Type::AbstractInt));
/// assert_eq!(type_of_index(&list, &i).unwrap().ty, Type::I32);
/// assert_eq!(type_of_index(&list, &Operand::constant(Type::U32)).unwrap().ty, Type::AbstractInt);
/// ```
pub fn type_of_index(x: &Operand, index: &Operand) -> Result<Operand, Refusal> {
    Ok(expression(proved::index::type_of_index(&x.given(), &index.given())?))
}

/// What `&x` is (WGSL, "Address-Of Expression"): the pointer for a reference.
///
/// [`Refusal::Unary`] if `x` is no reference, [`Refusal::PtrHandle`] if it is one in the handle space,
/// [`Refusal::PtrVecComp`] if it is one to components of a vector.
///
/// ```
/// use wgsl_types_proved::standard::{address_of, type_of_member, Operand, Refusal};
///
/// let v = Operand::new("ref<function, vec3<f32>, read_write>".parse()?);
/// assert_eq!(address_of(&v).unwrap().ty, "ptr<function, vec3<f32>, read_write>".parse()?);
/// let component = type_of_member(&v, "x").unwrap();
/// assert_eq!(address_of(&component), Err(Refusal::PtrVecComp));
/// # Ok::<(), wgsl_types_proved::ty::SpellingError>(())
/// ```
pub fn address_of(x: &Operand) -> Result<Operand, Refusal> {
    Ok(expression(proved::address::address_of(&x.given(), x.referent)?))
}

/// What `*x` is (WGSL, "Indirection Expression"): the reference for a pointer. [`Refusal::Unary`] if `x` is no pointer.
///
/// ```
/// use wgsl_types_proved::standard::{indirection, Operand};
///
/// let pointer = Operand::new("ptr<private, i32, read_write>".parse()?);
/// assert_eq!(indirection(&pointer).unwrap().ty, "ref<private, i32, read_write>".parse()?);
/// # Ok::<(), wgsl_types_proved::ty::SpellingError>(())
/// ```
pub fn indirection(x: &Operand) -> Result<Operand, Refusal> {
    Ok(expression(proved::address::indirection(&x.given())?))
}

/// What an expression is where its value is needed (WGSL, "Load Rule"): of a reference the type that it refers to, else its
/// own type.
///
/// [`Refusal::NotRead`] if the reference can't be read, [`Refusal::NotConstructible`] if it refers to an atomic, to a
/// runtime-sized array, or to what contains one.
///
/// ```
/// use wgsl_types_proved::standard::{load, Operand, Refusal};
///
/// let v = Operand::new("ref<uniform, vec2<f32>, read>".parse()?);
/// assert_eq!(load(&v).unwrap().ty, "vec2<f32>".parse()?);
/// let counter = Operand::new("ref<workgroup, atomic<u32>, read_write>".parse()?);
/// assert_eq!(load(&counter), Err(Refusal::NotConstructible("atomic<u32>".parse()?)));
/// # Ok::<(), wgsl_types_proved::ty::SpellingError>(())
/// ```
pub fn load(x: &Operand) -> Result<Operand, Refusal> {
    let loaded = proved::load::load(&x.given())?;
    let ty = built_form(FormType::of(UnbuiltType::of(loaded.ty)));
    Ok(Operand { ty, is_constant: loaded.is_constant, referent: Referent::Whole })
}

#[inline(always)]
fn expression(form: Form<'_>) -> Operand {
    let Form { ty, is_constant } = form;
    Operand { ty: built_form(ty), is_constant, referent: ty.referent() }
}

#[inline(always)]
pub(super) fn built_form(ty: FormType<'_>) -> Type {
    always(ty.rattle_build(Global))
}
