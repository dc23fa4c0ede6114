//! WGSL's own overloads: the results of calls print as the answers to the same requests.

use crate::{asked::reply, random::Random};
use std::collections::BTreeSet;
use wgsl_types_proved::builtin::is_ctor;
use wgsl_types_proved::requests::standard_answer;
use wgsl_types_proved::standard::*;
use wgsl_types_proved::syntax::{BinaryOperator, UnaryOperator};
use wgsl_types_proved::Type;

const ROUNDS: usize = 20_000;

/// Whether a request can be read; then it has that answer.
fn is_answered(request: &str, found: &str) -> bool {
    let told = reply(request).map(|told| told.unwrap_or_else(|why| why));
    told.inspect(|told| assert_eq!(told, found, "{request}")).is_some()
}

/// The operand as WGSL spells it, but for structs and vectors of other lengths, which no request can spell.
fn spelled(operand: &Operand) -> String {
    format!("{}{}", if operand.is_constant { "const " } else { "" }, operand.ty)
}

fn type_text(found: Result<Option<Operand>, NoOverload>) -> String {
    match found {
        Ok(Some(value)) => value.ty.to_string(),
        Ok(None) => "no value".to_string(),
        Err(refused) => refused.to_string(),
    }
}

fn resolution_text(found: Result<Resolution, NoOverload>) -> String {
    let Resolution { overload, parameters, result, .. } = match found {
        Ok(resolution) => resolution,
        Err(refused) => return refused.to_string(),
    };
    let parameters: Vec<String> = parameters.iter().map(Type::to_string).collect();
    let result = result.map_or(String::new(), |value| format!(" -> {}", value.ty));
    format!("{overload} ({}){result}", parameters.join(", "))
}

/// What types and the parameters of overloads begin with; none of these is a scalar.
const FORMS: [&str; 5] = ["vec", "mat", "texture", "sampler", "ptr"];

/// The text at the index of a resolution has a template if the call has one, and parameters of the forms of the types.
fn expect_form((name, has_template): (&str, bool), found: &Resolution) {
    let overload = &overloads(name)[found.overload];
    assert_eq!(overload.has_template(), has_template, "{name}");
    let form = |text: &str| FORMS.iter().find(|form| text.starts_with(**form));
    let texts = overload.parameters().into_iter().map(|at| form(&overload.text[at]));
    let types = found.parameters[usize::from(has_template)..].iter();
    assert!(texts.eq(types.map(|ty| form(&ty.to_string()))), "{name}: {overload}");
}

/// Whether an expression is a call with overloads: the types of others are those of forms.
fn has_overloads(expression: &str) -> bool {
    !["& ", "* ", "array"].iter().any(|call| expression.starts_with(call))
}

/// An expression, by the name of its operator or call and whether that has a template, with its value, its resolution and, if it
/// is refused, why. Returns whether requests have answered the same, and whether a type shows if it is a const-expression.
fn compare(
    callee: (&str, bool),
    expression: &str,
    value: Result<Option<Operand>, NoOverload>,
    resolution: Result<Resolution, NoOverload>,
) -> [bool; 2] {
    match &resolution {
        Ok(found) => {
            expect_form(callee, found);
            assert_eq!(value.as_ref(), Ok(&found.result), "{expression}");
        }
        Err(refused) => expect_reasons(expression, refused),
    }
    let is_constant = is_shown_constant(expression);
    if let (Ok(Some(value)), Some(is_constant)) = (&value, is_constant) {
        assert_eq!(value.is_constant || value.ty.is_abstract(), is_constant, "{expression}");
    }
    let is_asked = has_overloads(expression)
        && is_answered(&format!("type {expression}"), &type_text(value))
        && is_answered(&format!("resolve {expression}"), &resolution_text(resolution));
    [is_asked, is_constant.is_some()]
}

/// How often the first and the second of these hold.
fn counts(found: impl Iterator<Item = [bool; 2]>) -> [usize; 2] {
    found.fold([0, 0], |[a, b], [x, y]| [a + usize::from(x), b + usize::from(y)])
}

/// Whether an expression is a const-expression, if a type shows it.
fn is_shown_constant(expression: &str) -> Option<bool> {
    let shown = format!("type select(1, 2, all(({expression}) == ({expression})))");
    match standard_answer(&shown).as_deref() {
        Ok("AbstractInt") => Some(true),
        Ok("i32") => Some(false),
        _ => None,
    }
}

/// The reasons are those that are asked for by `why`, the nearest first.
fn expect_reasons(expression: &str, refused: &NoOverload) {
    let reasons = refused.explanations();
    let listed = overloads(&refused.callee.to_string());
    for why in &reasons {
        let text = why.to_string();
        let reason = text.strip_prefix(&format!("{}: ", listed[why.overload])).expect(&text);
        match &why.mismatch {
            Mismatch::Count { takes, given } => {
                assert_eq!(*given, refused.operands.len());
                assert_eq!(*takes, listed[why.overload].parameters().len());
                assert!(reason.starts_with(&format!("takes {takes} argument")), "{text}");
            }
            Mismatch::Argument { index, ty } => {
                let given = match &refused.operands[*index].ty {
                    Type::Ref(_, of, access) if access.is_read() => of,
                    given => given,
                };
                assert_eq!(ty, given);
                assert!(reason.starts_with(&format!("argument {} is ", index + 1)), "{text}");
            }
            Mismatch::Template(ty) => {
                assert_eq!(Some(ty), refused.template.as_ref());
                assert!(reason.starts_with("the template is "), "{text}");
            }
        }
    }
    let distance = |why: &Explanation| match why.mismatch {
        Mismatch::Count { takes, given } => (takes.abs_diff(given), 0, why.overload),
        Mismatch::Argument { index, .. } => (0, 99 - index, why.overload),
        Mismatch::Template(_) => (0, 100, why.overload),
    };
    assert!(reasons.windows(2).all(|pair| distance(&pair[0]) < distance(&pair[1])), "{expression}");
    let why: Vec<String> = reasons.iter().map(Explanation::to_string).collect();
    let why = match &why[..] {
        [] if refused.is_unknown_name => refused.to_string(),
        [] => "none".to_string(),
        lines => lines.join("\n"),
    };
    if has_overloads(expression) {
        is_answered(&format!("why {expression}"), &why);
    }
}

#[test]
fn operators() {
    let mut random = Random::new(6);
    let [asked, shown] = counts((0..ROUNDS).flat_map(|_| {
        let (operator, unary) = (random.binary_operator(), random.unary_operator());
        let (lhs, rhs) = (random.operand(), random.operand());
        let binary = compare(
            (&operator.to_string(), false),
            &format!("{} {operator} {}", spelled(&lhs), spelled(&rhs)),
            type_binary_op(operator, &lhs, &rhs).map(Some),
            resolve_binary_op(operator, &lhs, &rhs),
        );
        let unary = compare(
            (&unary.to_string(), false),
            &format!("{unary} {}", spelled(&lhs)),
            type_unary_op(unary, &lhs).map(Some),
            resolve_unary_op(unary, &lhs),
        );
        [binary, unary]
    }));
    assert!(asked > ROUNDS && shown > ROUNDS / 5, "{asked}, {shown}");
}

#[test]
fn constructors_and_calls() {
    let mut random = Random::new(7);
    let [asked, shown] = counts((0..ROUNDS).map(|_| {
        let (name, template, operands) = random.call();
        let template = template.as_ref();
        let list = template.map_or(String::new(), |ty| format!("<{ty}>"));
        let arguments: Vec<String> = operands.iter().map(spelled).collect();
        let expression = format!("{name}{list}({})", arguments.join(", "));
        let (value, resolution) = if is_ctor(name) {
            let value = type_ctor(name, template, &operands).map(Some);
            (value, resolve_ctor(name, template, &operands))
        } else {
            let value = type_builtin_fn(name, template, &operands);
            (value, resolve_builtin_fn(name, template, &operands))
        };
        compare((name, template.is_some()), &expression, value, resolution)
    }));
    assert!(asked > ROUNDS / 2 && shown > ROUNDS / 20, "{asked}, {shown}");
}

#[test]
fn all_operands_count() {
    for (name, count) in [("mat2x3", 6), ("mat2x4", 8), ("mat3x3", 9), ("mat4x4", 16)] {
        let mut operands = vec![Operand::constant(Type::F32); count];
        let made = type_ctor(name, None, &operands).unwrap();
        assert!(made.ty.is_mat() && made.is_constant);
        operands[count - 1] = Operand::new(Type::F32);
        assert!(!type_ctor(name, None, &operands).unwrap().is_constant);
        operands[count - 1] = Operand::new(Type::Bool);
        let reasons = type_ctor(name, None, &operands).unwrap_err().explanations();
        let last = Mismatch::Argument { index: count - 1, ty: Type::Bool };
        assert!(reasons.iter().any(|why| why.mismatch == last), "{name}");
    }
}

#[test]
fn overloads_are_listed() {
    for name in ["-", "+", "<<", "select", "vec3", "textureStore", "bitcast", "no_such_name"] {
        let texts: Vec<String> = overloads(name).into_iter().map(|listed| listed.text).collect();
        let found = if texts.is_empty() { "none".to_string() } else { texts.join("\n") };
        assert!(is_answered(&format!("overloads {name}"), &found));
    }
}

#[test]
fn parameters_are_parts_of_the_text() {
    let parameters = |name: &str, index: usize| {
        let overload = &overloads(name)[index];
        let found = overload.parameters().into_iter().map(|at| overload.text[at].to_string());
        found.collect::<Vec<String>>()
    };
    assert_eq!(parameters("<<", 0), ["T", "u32"]);
    assert_eq!(parameters("<", 1), ["vecN<T>", "vecN<T>"]);
    assert_eq!(parameters("workgroupBarrier", 0), [""; 0]);
    let store = parameters("textureStore", 0);
    assert!(store[0].starts_with("texture_storage_1d<") && store[0].ends_with('>'), "{store:?}");
    assert_eq!(store.len(), 3);
}

#[test]
fn refusals_are_plain_data() {
    let (truth, one) = (Operand::new(Type::Bool), Operand::constant(Type::I32));
    let refused = type_binary_op(BinaryOperator::Addition, &truth, &one).unwrap_err();
    assert_eq!(refused.callee, Callee::Binary(BinaryOperator::Addition));
    assert_eq!((refused.template.as_ref(), &refused.operands[..]), (None, &[truth, one][..]));
    assert_eq!(refused.explanations(), explain(&refused.callee, None, &refused.operands));
    let nothing = type_builtin_fn("no_such_name", None, &[]).unwrap_err();
    assert_eq!(nothing.to_string(), "nothing has the name `no_such_name`");
    assert!(nothing.is_unknown_name && !refused.is_unknown_name);
    assert_eq!(nothing.explanations(), []);
    let texture = Operand::new("texture_storage_2d<rg11b10ufloat, write>".parse().unwrap());
    let refused = type_builtin_fn("sqrt", None, &[texture]).unwrap_err().to_string();
    let wanted = "no overload of `sqrt` takes (texture_storage_2d<rg11b10ufloat, write>)";
    assert_eq!(refused, wanted);
    assert!(type_unary_op(UnaryOperator::AddressOf, &Operand::new(Type::F32)).is_err());
}

#[test]
fn deeper_operands_are_answered() {
    let deep = (1..300).fold(Type::F32, |ty, _| Type::array(None, ty));
    assert!(type_unary_op(UnaryOperator::Negation, &Operand::new(deep)).is_err());
}

/// Lists of const-expressions, with `|` between them. Each function takes one of them, if it takes no pointer and has a value.
const ARGUMENTS: &str =
    "|1|1, 1|1, 1, 1|1, 1, 1, 1|true|1, 1, true|vec2(1)|vec3(1), vec3(1)|vec3(1), vec3(1), 1|\
    vec3(1), vec3(1), vec3(1)|vec4(1)|mat2x2f()|const texture_2d<f32>|\
    const texture_2d_array<f32>|const texture_multisampled_2d<f32>|\
    const texture_2d<f32>, vec2(1), 1|const texture_2d<f32>, const sampler, vec2(1)|\
    const texture_2d<f32>, const sampler, vec2(1), 1|\
    const texture_2d<f32>, const sampler, vec2(1), vec2(1), vec2(1)|\
    const texture_depth_2d, const sampler, vec2(1)|\
    const texture_depth_2d, const sampler_comparison, vec2(1), 1|\
    1, const texture_2d<f32>, const sampler, vec2(1)";

/// Whether its calls can be const-expressions, as the type of an expression with such a call shows.
fn is_const_function(name: &str) -> Option<bool> {
    let parts = ["", ".fract", "[0]"];
    let calls =
        ARGUMENTS.split('|').flat_map(|list| parts.map(|part| format!("{name}({list}){part}")));
    calls.into_iter().find_map(|call| is_shown_constant(&call))
}

/// Functions whose calls have no value or take a pointer: no type shows whether these are const-expressions.
const WITHOUT_A_TYPE: [&str; 6] =
    ["arrayLength", "atomic", "storage", "textureBarrier", "textureStore", "workgroup"];
const AT_RUN_TIME: [&str; 5] = ["dpd", "fwidth", "quad", "subgroup", "texture"];

#[test]
fn calls_that_can_be_const_expressions() {
    let begins = |name: &str, groups: &[&str]| groups.iter().any(|group| name.starts_with(group));
    let lines = std::fs::read_to_string("tests/lines/built_ins.txt").unwrap();
    let names = lines.lines().filter_map(|line| line.strip_prefix("call ")?.split(' ').next());
    let names: BTreeSet<&str> = names.filter(|name| !overloads(name).is_empty()).collect();
    assert!(names.len() > 140);
    for name in names.into_iter().filter(|name| *name != "bitcast") {
        let is_shown = !begins(name, &WITHOUT_A_TYPE);
        let expected = is_shown.then(|| !begins(name, &AT_RUN_TIME));
        assert_eq!(is_const_function(name), expected, "{name}");
        for list in ARGUMENTS.split('|') {
            if let Ok(Some(value)) = type_builtin_fn(name, None, &constants(list)) {
                assert_eq!(value.is_constant, !begins(name, &AT_RUN_TIME), "{name}({list})");
            }
        }
    }
}

/// The operands that a list of const-expressions has.
fn constants(list: &str) -> Vec<Operand> {
    let texts = list.split(", ").filter(|text| !text.is_empty());
    let types = texts.map(|text| standard_answer(&format!("type {text}")).unwrap());
    types.map(|ty| Operand::constant(ty.parse().unwrap())).collect()
}
