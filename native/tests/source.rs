//! Types from their spellings, and the layouts of a file.

use crate::{asked::one_type, tables::rows};
use wgsl_types_proved::source::{code, layouts, types, Language, Message};
use wgsl_types_proved::syntax::{AccessMode, AddressSpace};
use wgsl_types_proved::Type;

#[test]
fn what_displays_is_read() {
    for [text] in rows("tables/strange.tsv") {
        let ty = one_type(&text);
        let (inner, other) = (Box::new(ty.clone()), Type::array(Some(4), ty.clone()));
        let pointer = Type::Ptr(AddressSpace::Storage, inner, AccessMode::ReadWrite);
        for ty in [ty, other, pointer] {
            let text = ty.to_string();
            match text.parse::<Type>() {
                Ok(read) => assert_eq!(read, ty),
                Err(error) => assert!(!is_spelled(&ty), "{text}: {error}"),
            }
        }
    }
}

/// Whether WGSL can spell the type: a struct's name doesn't say its members, and vectors and matrices have two to four
/// components in a row.
fn is_spelled(ty: &Type) -> bool {
    match ty {
        Type::Struct(_) => false,
        Type::Vec(n, inner) => (2..=4).contains(n) && is_spelled(inner),
        Type::Mat(c, r, inner) => [c, r].iter().all(|n| (2..=4).contains(*n)) && is_spelled(inner),
        Type::Array(inner, n) | Type::BindingArray(inner, n) => {
            n.unwrap_or(0) < 1 << 63 && is_spelled(inner)
        }
        Type::Atomic(inner) | Type::Ptr(_, inner, _) | Type::Ref(_, inner, _) => is_spelled(inner),
        _ => true,
    }
}

/// What a module declares and is told, as Rust prints it, each with the name of its list; in front the types of its variables, as
/// WGSL spells them.
fn told(text: &[u8]) -> Vec<[String; 2]> {
    let module = layouts(text);
    let types = module.variables.iter().map(|of| ["types".to_string(), of.ty.to_string()]);
    let mut told: Vec<_> = types.collect();
    macro_rules! lists {
        ($($list:ident)*) => {
            $(told.extend(module.$list.iter().map(|of| [stringify!($list).into(), format!("{of:?}")]));)*
        };
    }
    lists!(structs left_out variables overrides entry_points errors findings);
    told
}

#[test]
fn modules_are_laid_out() {
    let mut found = Vec::new();
    for [list, text] in rows("tables/layouts.tsv") {
        if list == "module" {
            assert_eq!(found, [[""; 2]; 0], "isn't in the table");
            found = told(text.as_bytes());
        } else {
            assert_eq!(found.remove(0), [list, text]);
        }
    }
    assert_eq!(found, [[""; 2]; 0], "isn't in the table");
    let [[list, error]] = &told(b"struct A { \xff }")[..] else { panic!() };
    assert!(list == "errors" && error.contains("Place { line: 1, column: 12,"), "{error}");
}

#[test]
fn address_spaces_hold_what_browsers_let_them_hold() {
    let rows = rows::<2>("tables/spaces.tsv");
    assert_eq!(rows.len(), 27);
    for [verdict, text] in rows {
        let module = layouts(&text);
        let told: Vec<&Message> = module.errors.iter().chain(&module.findings).collect();
        assert_eq!(told.is_empty(), verdict == "taken", "{text}: {told:?}");
        assert!(told.len() < 2, "{text}: {told:?}");
    }
}

#[test]
fn declared_types_are_types() {
    let text = include_str!("../../tests/sourced/every_form.wgsl");
    let (module, types) = (layouts(text), types(text));
    for of in &module.structs {
        let Type::Struct(ty) = &types[&of.name] else { panic!("{}", of.name) };
        let Some(layout) = ty.layout() else {
            assert!(of.is_runtime_sized, "{}", of.name);
            continue;
        };
        assert_eq!((of.size, of.align), (layout.size, layout.align));
        for ((member, placed), ty) in of.members.iter().zip(&layout.members).zip(&ty.members) {
            let measured = (member.offset, member.size, member.align);
            assert_eq!(measured, (placed.offset, placed.size, placed.align));
            assert_eq!(member.ty.to_string(), ty.ty.to_string());
        }
    }
    assert!(module.structs.len() > 3 && types.len() > module.structs.len(), "{:?}", types.keys());
}

#[test]
fn types_that_cannot_be_given_are_left_out() {
    let named = |text: &str| types(text).into_keys().collect::<Vec<_>>();
    let text = "override N = 2; alias A = array<f32, N>; alias B = f32; alias C = nope;";
    assert_eq!(named(text), ["B"]);
    let doubled: String =
        (1..40).map(|at| format!("struct S{at} {{ a: S{0}, b: S{0} }}", at - 1)).collect();
    assert_eq!(named(&format!("struct S0 {{ a: f32 }} {doubled}")).len(), 16);
    let nested: String = (1..600).map(|at| format!("struct S{at} {{ a: S{} }}", at - 1)).collect();
    assert_eq!(named(&format!("struct S0 {{ a: f32 }} {nested}")).len(), 254);
}

#[test]
fn code_is_written() {
    let rows = rows::<2>("tables/code.tsv");
    let languages = [Language::C, Language::Rust, Language::Numpy, Language::TypeScript];
    assert_eq!(rows.len(), 1 + languages.len());
    for (language, [name, wanted]) in languages.into_iter().zip(&rows[1..]) {
        assert_eq!(format!("{language:?}"), *name);
        assert_eq!(code(&rows[0][1], language).unwrap(), *wanted);
    }
    let error = code("struct A { a: B }\nstruct C { d: x }", Language::Rust).unwrap_err();
    assert_eq!(error.errors.len(), 2);
    assert_eq!(error.to_string().lines().count(), 2);
    assert!(code(b"\xff", Language::C).is_err() && code("", Language::Rust).unwrap().is_empty());
}

#[test]
fn deep_types_need_little_stack() {
    let nested = format!("{}f32{}", "array<".repeat(253), ", 1>".repeat(253));
    let text = format!("alias A = {nested}; var<private> a: {nested};");
    let read = move || (layouts(&text).variables[0].ty.to_string(), types(&text)["A"].depth());
    let thread = std::thread::Builder::new().stack_size(512 << 10).spawn(read).unwrap();
    assert_eq!(thread.join().unwrap(), (nested, 254));
}
