//! Conversions, ranks, common types, and the candidates that are chosen for operators.

use crate::{asked::types, tables::rows};
use wgsl_types_proved::builtin::{binary_candidate, type_builtin_fn, typecheck_struct_ctor};
use wgsl_types_proved::conv::{
    conversion_rank, convert, convert_all, convert_all_inner_to, convert_all_to, convert_all_ty,
    convert_inner, convert_ty, rank_steps, Convert,
};
use wgsl_types_proved::ty::StructType;
use wgsl_types_proved::Type;

/// A type as it is spelled, or `none`.
fn spelled(ty: Option<Type>) -> String {
    ty.map_or("none".to_string(), |ty| ty.to_string())
}

/// Two values as they are spelled, or `none`.
fn both(types: Option<(Type, Type)>) -> String {
    types.map_or("none".to_string(), |(a, b)| format!("{a} {b}"))
}

/// Each type of a list as it is spelled, or `none`.
fn listed(types: Option<Vec<Type>>) -> String {
    let texts = |types: Vec<Type>| types.iter().map(Type::to_string).collect::<Vec<_>>();
    types.map_or("none".to_string(), |types| format!("[{}]", texts(types).join(" ")))
}

/// What the operands of an operator convert to, and the result, or the refusal.
fn candidate(operator: &str, lhs: &Type, rhs: &Type) -> String {
    match binary_candidate(operator.parse().expect(operator), lhs, rhs) {
        Ok(chosen) => format!("({}, {}) {}", chosen.lhs, chosen.rhs, chosen.result),
        Err(refused) => refused.to_string(),
    }
}

#[test]
fn types_convert_as_the_table_says() {
    for [asked, texts, answer] in rows("tables/conversions.tsv") {
        let types = types(&texts);
        let found = match (&*asked, &types[..]) {
            ("concrete", [ty]) => {
                assert_eq!(Convert::concretize(ty), Some(Type::concretize(ty)), "of `{texts}`");
                ty.concretize().to_string()
            }
            ("to", [a, b]) => {
                format!("{}; {}", spelled(a.convert_to(b)), spelled(a.convert_inner_to(b)))
            }
            ("both", [a, b]) => format!("{}; {}", both(convert(a, b)), both(convert_inner(a, b))),
            ("all", _) => {
                let lists = [
                    convert_all(&types),
                    convert_all_to(&types, &Type::F32),
                    convert_all_inner_to(&types, &Type::F32),
                ];
                lists.map(listed).join("; ")
            }
            (operator, [lhs, rhs]) => candidate(operator, lhs, rhs),
            _ => panic!("{asked} of `{texts}`"),
        };
        assert_eq!(found, answer, "{asked} of `{texts}`");
    }
}

/// The structs that calls give, in threes of one function and shape: of AbstractFloat, f32 and f16.
fn result_structs() -> Vec<Type> {
    let mut results = Vec::new();
    for function in ["frexp", "modf"] {
        for components in 1..=4 {
            results.extend([Type::AbstractFloat, Type::F32, Type::F16].map(|of| {
                let of = if components == 1 { of } else { Type::vector(components, of) };
                type_builtin_fn(function, None, &[of]).unwrap().unwrap()
            }));
        }
    }
    results
}

#[test]
fn result_structs_convert_to_those_of_their_function_and_shape() {
    let results = result_structs();
    assert_eq!(results.len(), 24);
    for (from, a) in results.iter().enumerate() {
        for (to, b) in results.iter().enumerate() {
            let rank = match (from % 3, to % 3) {
                _ if from == to => Some(0),
                (0, 1) if from / 3 == to / 3 => Some(1),
                (0, 2) if from / 3 == to / 3 => Some(2),
                _ => None,
            };
            assert_eq!(conversion_rank(a, b), rank, "{a} to {b}");
            let of = StructType::new("S", [("a", b.clone())]);
            let is_taken = typecheck_struct_ctor(&of, std::slice::from_ref(a)).is_ok();
            assert_eq!(is_taken, rank.is_some(), "{a} to {b}");
        }
    }
}

#[test]
fn the_last_of_a_rising_list_is_its_common_type() {
    let rising = [Type::AbstractInt, Type::AbstractFloat, Type::F16];
    let [first, second, third] = &rising;
    assert!(first.is_convertible_to(second));
    assert!(!second.is_convertible_to(first));
    assert_eq!(convert_ty(first, second), Some(second));
    assert_eq!(convert_all_ty(&rising), Some(third));
}

#[test]
fn the_steps_of_a_rank_are_counted() {
    assert_eq!(rank_steps(&Type::AbstractInt, &Type::F32), (Some(6), 2));
    assert_eq!(rank_steps(&Type::AbstractInt, &Type::I32), (Some(3), 1));
    assert_eq!(rank_steps(&Type::I32, &Type::I32), (Some(0), 0));
}
