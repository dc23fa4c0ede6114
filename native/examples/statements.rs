//! Types the statements of a small shader by WGSL's rules, as a front end does for each part that it has parsed. It decides only
//! names, literals and scopes itself.

use std::{error::Error, fmt::Display, slice::from_ref};
use wgsl_types_proved::standard::{
    address_of, assign, assign_by, construct, increment, initialized_variable, type_binary_op,
    type_builtin_fn, type_ctor, type_of_index, type_of_member, Operand, Refusal,
};
use wgsl_types_proved::syntax::AddressSpace::{Function, Uniform};
use wgsl_types_proved::syntax::AssignmentOperator::{PlusEqual, TimesEqual};
use wgsl_types_proved::syntax::BinaryOperator::{Addition, Multiplication, ShiftLeft};
use wgsl_types_proved::ty::{StructType, Type};

fn show<T: Display, E: Display>(what: &str, found: Result<T, E>) {
    match found {
        Ok(found) => println!("{what:<40} {found}"),
        Err(error) => println!("{what:<40} error: {error}"),
    }
}

fn show_type<E: Display>(what: &str, found: Result<Operand, E>) {
    show(what, found.map(|x| x.shown_type().clone()));
}

/// `var name = value;` in a function: what the name is from there on.
fn declare(what: &str, value: &Operand) -> Result<Operand, Refusal> {
    let reference = initialized_variable(Function, None, value, None);
    show(what, reference.as_ref());
    reference.map(Operand::new)
}

/// `struct Light { power: f32, position: vec3f, colours: array<vec3f, 4> }`
fn light_type() -> Type {
    let vector = Type::vector(3, Type::F32);
    let colours = Type::array(Some(4), vector.clone());
    let members = [("power", Type::F32), ("position", vector), ("colours", colours)];
    StructType::new("Light", members).into()
}

fn main() -> Result<(), Box<dyn Error>> {
    let access = Uniform.default_access_mode();
    let light = Operand::new(Type::Ref(Uniform, Box::new(light_type()), access));
    let (power, position) = (type_of_member(&light, "power")?, type_of_member(&light, "position")?);
    let one = Operand::constant(Type::AbstractInt);
    let scaled = type_binary_op(Multiplication, &position, &power)?;
    let p = declare("var p = light.position * light.power", &scaled)?;
    let shifted = type_binary_op(ShiftLeft, &one, &Operand::constant(Type::U32))?;
    let i = declare("var i = 1 << 3u", &shifted)?;
    let colour = type_of_index(&type_of_member(&light, "colours")?, &i)?;
    let c = declare("var c = light.colours[i].xy", &type_of_member(&colour, "xy")?)?;
    let x = type_of_member(&c, "x")?;

    show_type("light.position.zy", type_of_member(&position, "zy"));
    show_type("&c", address_of(&c));
    show_type("&c.x", address_of(&x));
    let ones = type_ctor("vec3", None, from_ref(&one))?;
    show_type("vec3(1) + c", type_binary_op(Addition, &ones, &c));
    show_type("Light(1)", construct(&light_type(), from_ref(&one)));
    let bits = type_builtin_fn("bitcast", Some(&Type::U32), from_ref(&i))?;
    show_type("bitcast<u32>(i)", bits.ok_or("no value"));

    show("c.x = 1", assign(&x, &one));
    show("c = p", assign(&c, &p));
    show("p *= c.x", assign_by(TimesEqual, &p, &x));
    show("i += c.x", assign_by(PlusEqual, &i, &x));
    show("i++", increment(&i));
    show("light.power++", increment(&power));
    Ok(())
}
