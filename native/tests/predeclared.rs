//! What WGSL predeclares: names that are listed are read, and constructors are called by each name of a type.

use std::collections::BTreeSet;
use wgsl_types_proved::predeclared::{attributes, enumerants, functions, is_function, types};
use wgsl_types_proved::requests::standard_answer;
use wgsl_types_proved::source::layouts;
use wgsl_types_proved::standard::*;
use wgsl_types_proved::syntax::{AssignmentOperator, BinaryOperator, Enumerant};
use wgsl_types_proved::ty::StructType;
use wgsl_types_proved::Type;

/// Template lists, of which each name that needs one takes one.
const LISTS: [&str; 5] = ["f32", "f32, 4", "function, f32", "rgba8unorm, write", "u32"];

fn set(names: impl Iterator<Item = &'static str>) -> BTreeSet<&'static str> {
    let names: Vec<&str> = names.collect();
    let distinct: BTreeSet<&str> = names.iter().copied().collect();
    assert_eq!(names.len(), distinct.len(), "a name stands twice among {names:?}");
    distinct
}

#[test]
fn listed_names_are_read() {
    let types = set(types());
    for name in &types {
        let spelled = |list: &&str| format!("{name}<{list}>").parse::<Type>().is_ok();
        assert!(Type::predeclared(name).is_some() || LISTS.iter().any(spelled), "{name}");
    }
    assert_eq!(types.len(), 8 + 4 + 12 + 30 + 2 + 20 + 2);
    for wrong in ["AbstractInt", "AbstractFloat", "ref", "vec3", "vec3<f32>", "S", "", "f32 "] {
        assert_eq!(Type::predeclared(wrong), None, "{wrong}");
    }
    let enumerants = set(enumerants());
    assert_eq!(enumerants.len(), 6 + 4 + 41 + 1);
    let other = enumerants.iter().filter(|name| name.parse::<Enumerant>().is_err());
    assert_eq!(other.collect::<Vec<_>>(), [&"immediate", &"rg11b10ufloat"]);
    let attributes = set(attributes());
    assert_eq!(attributes.len(), 16);
    for name in attributes.iter().chain(&["nothing"]) {
        let errors = layouts(format!("struct S {{ @{name} a: f32 }}")).errors;
        let is_unknown = errors.iter().any(|error| error.text.contains("no such attribute"));
        assert_eq!(is_unknown, *name == "nothing", "{name}: {errors:?}");
    }
}

#[test]
fn functions_are_listed() {
    let functions = set(functions());
    let lines = std::fs::read_to_string("tests/lines/built_ins.txt").unwrap();
    let asked = lines.lines().filter_map(|line| line.strip_prefix("call ")?.split(' ').next());
    for name in asked.chain(functions.clone()) {
        assert_eq!(is_function(name), functions.contains(name), "{name}");
        assert_eq!(is_function(name), !overloads(name).is_empty(), "{name}");
    }
    assert!(!types().any(is_function));
    assert!(functions.len() > 140 && functions.contains("bitcast"));
}

#[test]
fn each_type_is_constructed_by_its_name() {
    let (none, ones) = (vec![], vec![Operand::new(Type::AbstractInt); 2]);
    let mut made = 0;
    for name in types().chain(["array<u32, 2>", "array<f32>", "vec2<bool>", "mat2x2<f16>"]) {
        let Ok(ty) = name.parse::<Type>() else { continue };
        for values in [&none, &ones, &vec![Operand::new(Type::Bool)]] {
            let words: Vec<String> = values.iter().map(|value| value.ty.to_string()).collect();
            let text = standard_answer(&format!("type {name}({})", words.join(", ")));
            let found = construct(&ty, values);
            assert_eq!(found.as_ref().ok().map(|value| value.ty.to_string()), text.ok(), "{name}");
            made += usize::from(found.is_ok());
            if !name.contains('<') {
                let named = type_ctor(name, None, values);
                assert_eq!(named.as_ref().ok(), found.as_ref().ok(), "{name}");
                let resolved = resolve_ctor(name, None, values).ok();
                assert_eq!(resolved.and_then(|call| call.result), named.ok(), "{name}");
            }
        }
    }
    assert!(made > 50, "{made}");
    let light = Type::from(StructType::new("Light", [("a", Type::F32), ("b", Type::U32)]));
    assert_eq!(construct(&light, &ones), Ok(Operand::constant(light.clone())));
    let runtime = [Operand::new(Type::F32), ones[0].clone()];
    assert_eq!(construct(&light, &runtime), Ok(Operand::new(light.clone())));
    let refused = construct(&light, &ones[1..]).unwrap_err();
    assert_eq!(refused, construct_struct(&light, &ones[1..]).unwrap_err().into());
    for ty in [Type::AbstractInt, Type::Atomic(Box::new(Type::U32))] {
        let refused = construct_struct(&ty, &none).unwrap_err();
        assert_eq!(refused.refusal, Refusal::NotConstructible(ty.clone()));
        assert_eq!(construct(&ty, &none), Err(refused.into()));
    }
}

#[test]
fn aliases_are_those_that_types_are_read_by() {
    for base in "vec1 vec2 vec3 vec4 mat2x3 mat3x2 mat4x4 mat5x2 bool f16".split(' ') {
        for letter in ' '..='~' {
            let name = format!("{base}{letter}");
            match type_ctor(&name, None, &[]) {
                Ok(made) => assert_eq!(Some(made.ty), Type::predeclared(&name), "{name}"),
                Err(refused) => {
                    assert_eq!(refused.callee, Callee::Constructor(name.clone()));
                    assert_eq!(Type::predeclared(&name), None, "{name}");
                }
            }
        }
    }
    assert!(type_ctor("vec3f", Some(&Type::F32), &[]).is_err());
    let refused = type_ctor("vec2u", None, &[Operand::new(Type::Bool)]).unwrap_err();
    assert_eq!(refused.to_string(), "no overload of `vec2<u32>` takes (bool)");
    assert!(!refused.explanations().is_empty());
}

#[test]
fn assignment_operators_have_names() {
    for operator in AssignmentOperator::ALL {
        let text = operator.to_string();
        assert_eq!(text.parse(), Ok(operator));
        let binary = operator.binary_operator().map_or(String::new(), |binary| binary.to_string());
        assert_eq!(format!("{binary}="), text);
    }
    let compound = BinaryOperator::ALL.map(|operator| format!("{operator}="));
    let named = compound.iter().filter(|text| text.parse::<AssignmentOperator>().is_ok());
    assert_eq!(named.count(), 10);
    assert_eq!("".parse::<AssignmentOperator>(), Err(()));
}
