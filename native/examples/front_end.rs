//! Types the statements of a small shader, as a front end does, and lays out its buffer.
//!
//! Written against the type layer of wgsl-types: only the root of `use` names the crate.

use std::collections::HashMap;
use wgsl_types_proved::{
    builtin::{
        is_ctor, type_binary_op, type_builtin_fn, type_ctor, type_unary_op, typecheck_struct_ctor,
    },
    conv::{conversion_rank, convert_all_ty},
    inst::LiteralInstance,
    syntax::{AccessMode, AddressSpace, BinaryOperator, Enumerant, UnaryOperator},
    tplt::{ArrayTemplate, PtrTemplate, TpltParam},
    ty::{StructMemberType, StructType, Ty, Type},
    CallSignature, Error, Instance,
};

/// An expression, as a parser leaves it.
enum Expr {
    Literal(LiteralInstance),
    Name(&'static str),
    Unary(UnaryOperator, Box<Expr>),
    Binary(BinaryOperator, Box<Expr>, Box<Expr>),
    Call(&'static str, Option<Vec<TpltParam>>, Vec<Expr>),
    Member(Box<Expr>, &'static str),
    Index(Box<Expr>, Box<Expr>),
}

use Expr::{Binary, Call, Index, Literal, Member, Name, Unary};

/// What names stand for: variables by the types of references to them, and structs.
#[derive(Default)]
struct Scope {
    variables: HashMap<&'static str, Type>,
    structs: HashMap<&'static str, StructType>,
}

impl Scope {
    /// The type of an expression; references stay.
    fn type_of(&self, expr: &Expr) -> Result<Type, Error> {
        match expr {
            Literal(literal) => Ok(literal.ty()),
            Name(name) => self.variables.get(name).cloned().ok_or(Error::Builtin("unknown name")),
            Unary(operator @ (UnaryOperator::AddressOf | UnaryOperator::Indirection), operand) => {
                type_unary_op(*operator, &self.type_of(operand)?)
            }
            Unary(operator, operand) => type_unary_op(*operator, &self.value(operand)?),
            Binary(operator, lhs, rhs) => {
                type_binary_op(*operator, &self.value(lhs)?, &self.value(rhs)?)
            }
            Call(name, tplt, args) => self.call(name, tplt.as_deref(), args),
            Member(of, name) => within_reference(self.type_of(of)?, |ty| component(ty, name)),
            Index(of, index) => {
                let index = self.value(index)?;
                if !index.is_integer() {
                    return Err(Error::NotIndexable(index));
                }
                within_reference(self.type_of(of)?, element)
            }
        }
    }

    /// The type of an expression, loaded.
    fn value(&self, expr: &Expr) -> Result<Type, Error> {
        self.type_of(expr).map(Type::loaded)
    }

    fn call(&self, name: &str, tplt: Option<&[TpltParam]>, args: &[Expr]) -> Result<Type, Error> {
        let args: Vec<Type> = args.iter().map(|arg| self.value(arg)).collect::<Result<_, _>>()?;
        if let Some(of) = self.structs.get(name) {
            typecheck_struct_ctor(of, &args)?;
            return Ok(Type::Struct(Box::new(of.clone())));
        }
        if is_ctor(name) {
            return type_ctor(name, tplt, &args);
        }
        type_builtin_fn(name, tplt, &args)?.ok_or_else(|| {
            let (name, tplt) = (name.to_string(), tplt.map(<[TpltParam]>::to_vec));
            Error::Signature(CallSignature { name, tplt, args })
        })
    }

    /// `var name: ty = x;`, or without a type.
    fn declare(&mut self, name: &'static str, ty: Option<Type>, x: &Expr) -> Result<Type, Error> {
        let given = self.value(x)?;
        let ty = ty.unwrap_or_else(|| given.concretize());
        if !given.is_convertible_to(&ty) {
            return Err(Error::Conversion(given, ty));
        }
        let space = AddressSpace::Function;
        let reference = Type::Ref(space, Box::new(ty.clone()), space.default_access_mode());
        self.variables.insert(name, reference);
        Ok(ty)
    }

    /// `to = from;`
    fn assign(&self, to: &Expr, from: &Expr) -> Result<Type, Error> {
        let (to, from) = (self.type_of(to)?, self.value(from)?);
        match to {
            Type::Ref(_, ty, access) if access.is_write() && from.is_convertible_to(&ty) => Ok(*ty),
            Type::Ref(_, ty, access) if access.is_write() => Err(Error::WriteRefType(from, *ty)),
            _ => Err(Error::NotWrite),
        }
    }
}

/// Applies `inner` to a type. Of a reference it is applied to the type that it refers to, and the result is a reference
/// too.
fn within_reference(ty: Type, inner: impl Fn(&Type) -> Result<Type, Error>) -> Result<Type, Error> {
    match ty {
        Type::Ref(space, ty, access) => Ok(Type::Ref(space, Box::new(inner(&ty)?), access)),
        ty => inner(&ty),
    }
}

fn component(ty: &Type, name: &str) -> Result<Type, Error> {
    let missing = || Error::Component(ty.clone(), name.to_string());
    match ty {
        Type::Struct(of) => {
            let member = of.members.iter().find(|member| member.name == name);
            member.map(|member| member.ty.clone()).ok_or_else(missing)
        }
        Type::Vec(count, of) => {
            let fits = |letter| "xyzw".chars().take(usize::from(*count)).any(|own| own == letter);
            match name.len() {
                _ if !name.chars().all(fits) => Err(missing()),
                1 => Ok((**of).clone()),
                len @ 2..=4 => Ok(Type::Vec(len as u8, of.clone())),
                _ => Err(missing()),
            }
        }
        _ => Err(missing()),
    }
}

fn element(ty: &Type) -> Result<Type, Error> {
    match ty {
        Type::Array(of, _) | Type::Vec(_, of) => Ok((**of).clone()),
        Type::Mat(_, rows, of) => Ok(Type::Vec(*rows, of.clone())),
        _ => Err(Error::NotIndexable(ty.clone())),
    }
}

fn vec(count: u8) -> Type {
    Type::Vec(count, Box::new(Type::F32))
}

fn int(value: i64) -> Expr {
    Literal(LiteralInstance::AbstractInt(value))
}

fn binary(operator: BinaryOperator, lhs: Expr, rhs: Expr) -> Expr {
    Binary(operator, Box::new(lhs), Box::new(rhs))
}

/// `struct Light { intensity: f32, position: vec3<f32>, colours: array<vec3<f32>, 4> }`
fn light() -> Result<StructType, Error> {
    let four = TpltParam::Instance(Instance::Literal(LiteralInstance::U32(4)));
    let colours = ArrayTemplate::parse(&[TpltParam::Type(vec(3)), four])?.ty();
    let members = [("intensity", Type::F32), ("position", vec(3)), ("colours", colours)];
    let members = members.into_iter().map(|(name, ty)| StructMemberType::new(name.to_string(), ty));
    Ok(StructType { name: "Light".to_string(), members: members.collect() })
}

fn show(what: &str, ty: Result<Type, Error>) {
    match ty {
        Ok(ty) => println!("{what:<36} {ty}"),
        Err(error) => println!("{what:<36} error: {error}"),
    }
}

/// The types of a shader's statements, in order.
fn show_statements(scope: &mut Scope) {
    use BinaryOperator::{Addition, Multiplication, ShiftLeft};
    let member = |name| Member(Box::new(Name("light")), name);
    let scaled = binary(Multiplication, member("position"), member("intensity"));
    show("let p = light.position * ..intensity", scope.declare("p", None, &scaled));
    let shifted = binary(ShiftLeft, int(1), Literal(LiteralInstance::U32(3)));
    show("var i = 1 << 3u", scope.declare("i", None, &shifted));
    let colour = Index(Box::new(member("colours")), Box::new(Name("i")));
    show("var c = light.colours[i].xy", scope.declare("c", None, &Member(Box::new(colour), "xy")));
    let sum = binary(Addition, Name("c"), Call("vec3", None, vec![int(1)]));
    show("c + vec3(1)", scope.type_of(&sum));
    let both = Call("vec2", None, vec![Name("i"), Name("i")]);
    show("c = vec2(i, i)", scope.assign(&Name("c"), &both));
    show("light.intensity = 1", scope.assign(&member("intensity"), &int(1)));
    show("&i", scope.type_of(&Unary(UnaryOperator::AddressOf, Box::new(Name("i")))));
    let clamped = Call("clamp", None, vec![int(1), member("intensity"), int(2)]);
    show("clamp(1, light.intensity, 2)", scope.type_of(&clamped));
    show("dot(p, c)", scope.type_of(&Call("dot", None, vec![Name("p"), Name("c")])));
    show("Light(1)", scope.type_of(&Call("Light", None, vec![int(1)])));
    show("p.w", scope.type_of(&Member(Box::new(Name("p")), "w")));
    let bits = Some(vec![TpltParam::Type(Type::U32)]);
    show("bitcast<u32>(i)", scope.type_of(&Call("bitcast", bits, vec![Name("i")])));
}

fn main() -> Result<(), Error> {
    let light = light()?;
    let measured = |ty: &Type| (ty.size_of().unwrap_or(0), ty.align_of().unwrap_or(0));
    for member in &light.members {
        let (size, align) = measured(&member.ty);
        println!("{:<9} size {size:>2}, align {align:>2}", member.name);
    }
    let ty = Type::Struct(Box::new(light.clone()));
    let (size, align) = measured(&ty);
    println!("{ty} size {size}, align {align}");
    let uniform = [
        TpltParam::Enumerant(Enumerant::AddressSpace(AddressSpace::Uniform)),
        TpltParam::Type(ty.clone()),
        TpltParam::Enumerant(Enumerant::AccessMode(AccessMode::Read)),
    ];
    let buffer = PtrTemplate::parse(&uniform)?;
    let mut scope = Scope::default();
    scope.variables.insert("light", Type::Ref(buffer.space, Box::new(buffer.ty), buffer.access));
    scope.structs.insert("Light", light);
    show_statements(&mut scope);
    let numbers = [Type::AbstractInt, Type::AbstractFloat, Type::F16];
    let ranks: Vec<_> = numbers.iter().map(|ty| conversion_rank(ty, &Type::F16)).collect();
    println!("{:?} to {:?}", ranks, convert_all_ty(&numbers));
    Ok(())
}
