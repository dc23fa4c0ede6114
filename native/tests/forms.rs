//! Members, indexes, loads, declarations, assignments and lists of values: each question of `tests/forms/questions.txt`, or of
//! the file that the variable `QUESTIONS` names, has its answer.

use crate::asked::{reply, types, Asked};
use crate::tables::rows;
use std::{collections::HashMap, env, fs};
use wgsl_types_proved::{
    mem::StructLayout, standard::*, syntax::AddressSpace, ty::StructType, Type,
};

#[test]
fn questions_are_answered() {
    let path = env::var("QUESTIONS").unwrap_or("tests/forms/questions.txt".to_string());
    let text = fs::read_to_string(&path).expect(&path);
    let rows = text.lines().filter(|line| !line.starts_with('#'));
    let mut count = 0;
    for (question, expected) in rows.filter_map(|row| row.split_once('\t')) {
        let mut asked = Asked::new(question);
        let found = answer(&mut asked).map(in_wgsl);
        assert!(asked.is_empty(), "{question}");
        if !question.contains("layout struct ") {
            // The request has the same answer.
            let told = found.clone().map_err(|refusal| refusal.to_string());
            assert_eq!(reply(question), Some(told), "{question}");
        }
        let refused = |refusal| format!("refused\t{}", in_wgsl(variant(&refusal)));
        let found = found.unwrap_or_else(refused);
        assert_eq!(found, expected, "{question}");
        count += 1;
    }
    assert!(count > 600, "there are only {count} questions");
}

/// Whether a part of an expression is a const-expression, its type, and what it refers to; the types of conditions and returned
/// values; or why there is none.
#[test]
fn parts_are_operands() {
    for [question, expected] in rows("tables/operands.tsv") {
        let mut asked = Asked::new(&question);
        let found = operand(&mut asked);
        assert!(asked.is_empty(), "{question}");
        assert_eq!(found.unwrap_or_else(|refusal| format!("{refusal:?}")), expected, "{question}");
    }
}

fn operand(asked: &mut Asked) -> Result<String, Refusal> {
    if asked.take("if ") {
        return condition(&asked.operand()).map(|ty| ty.to_string());
    }
    if asked.take("return ") {
        let ty = asked.ty();
        asked.expect("of ");
        return return_value(&asked.operand(), &ty).map(|ty| ty.to_string());
    }
    let is_loaded = asked.take("load ");
    let x = expression(asked)?;
    let x = if is_loaded { load(&x)? } else { x };
    let stage = if x.is_constant { "const " } else { "" };
    Ok(format!("{stage}{} {:?}", x.ty, x.referent))
}

/// Assignments to swizzles of references: each statement, behind names with their types, is allowed or refused as the WGSL
/// compiler of a current browser says.
#[test]
fn swizzles_are_assigned_to() {
    let rows = rows::<3>("tables/swizzles.tsv");
    let (names, statements): (Vec<_>, Vec<_>) = rows.into_iter().partition(|row| row[0] == "name");
    let names: HashMap<_, _> =
        names.into_iter().map(|[_, name, ty]| (name, Asked::new(&ty).ty())).collect();
    assert_eq!(statements.len(), 40);
    for [verdict, statement, expected] in statements {
        let mut asked = Asked::new(&statement);
        asked.names.clone_from(&names);
        let mut found = answer(&mut asked);
        if let (true, Ok(ty)) = (asked.take(";"), &found) {
            asked.names.insert("x".to_string(), ty.parse().expect(ty));
            found = answer(&mut asked);
        }
        assert_eq!(found.is_ok(), verdict == "allowed", "{statement}");
        assert_eq!(found.unwrap_or_else(|refusal| refusal.to_string()), expected, "{statement}");
    }
}

/// A text with WGSL's name of the address space that values display by naga's.
fn in_wgsl(text: String) -> String {
    text.replace("push_constant", "immediate")
}

/// The answer to a question.
fn answer(asked: &mut Asked) -> Result<String, Refusal> {
    let found = match asked {
        _ if asked.take("type ") => typed(expression(asked)),
        _ if asked.take("load ") => typed(load(&asked.operand())),
        _ if asked.take("_ = ") => discard(&expression(asked)?),
        _ if asked.take("let x") => declared(Declaration::Let, asked),
        _ if asked.take("const x") => declared(Declaration::Const, asked),
        _ if asked.take("override x") => declared(Declaration::Override, asked),
        _ if asked.take("var") => stored(asked),
        _ if asked.take("switch ") => switch(asked),
        _ if asked.take("if ") => {
            let value = asked.operand();
            asked.expect("{ }");
            condition(&value)?;
            return Ok("fits".to_string());
        }
        _ if asked.take("fn f(") => {
            let types = asked.list(")", |asked| {
                asked.word();
                asked.declared().expect("a type")
            });
            asked.expect("f(");
            fit("f", &asked.operands(")"), &types)?;
            return Ok("fits".to_string());
        }
        _ if asked.take("layout struct ") => return Ok(layout_text(asked.structure())),
        _ => assigned(asked),
    };
    found.map(|ty| ty.to_string())
}

fn typed(found: Result<Operand, impl Into<Refusal>>) -> Result<Type, Refusal> {
    found.map(|operand| operand.shown_type().clone()).map_err(Into::into)
}

/// An operand, a call or what stands in brackets, with operators in front, and members and indexes behind.
fn expression(asked: &mut Asked) -> Result<Operand, Refusal> {
    if asked.take("&") {
        return address_of(&expression(asked)?);
    }
    if asked.take("*") {
        return indirection(&expression(asked)?);
    }
    let mut x = primary(asked)?;
    loop {
        if asked.take(".") {
            x = type_of_member(&x, asked.word())?;
        } else if asked.take("[") {
            let index = expression(asked)?;
            asked.expect("]");
            x = type_of_index(&x, &index)?;
        } else {
            return Ok(x);
        }
    }
}

fn primary(asked: &mut Asked) -> Result<Operand, Refusal> {
    if asked.take("array(") {
        return Ok(construct_array(&asked.operands(")"))?);
    }
    if asked.take("(") {
        let x = expression(asked);
        asked.expect(")");
        return x;
    }
    let x = asked.operand();
    if !asked.take("(") {
        return Ok(x);
    }
    let values = asked.operands(")");
    Ok(match &x.ty {
        Type::Array(element, count) => construct_array_of(element, *count, &values)?,
        structure => construct_struct(structure, &values)?,
    })
}

/// A declared type, and a value behind `=`.
fn declared(declaration: Declaration, asked: &mut Asked) -> Result<Type, Refusal> {
    let ty = asked.declared();
    if !asked.take("= ") {
        return override_without_value(&ty.expect("a type"));
    }
    declare(declaration, &expression(asked)?, ty.as_ref())
}

fn stored(asked: &mut Asked) -> Result<Type, Refusal> {
    let (mut space, mut access) = (AddressSpace::Function, None);
    if asked.take("<") {
        (space, access) = (asked.space(), asked.access());
        asked.expect(">");
    }
    asked.expect("x");
    let ty = asked.declared();
    if !asked.take("= ") {
        return variable(space, access, &ty.expect("a type"));
    }
    initialized_variable(space, access, &asked.operand(), ty.as_ref())
}

fn switch(asked: &mut Asked) -> Result<Type, Refusal> {
    let selector = asked.operand();
    asked.expect("{");
    let cases = if asked.take("case ") { asked.operands("{ }") } else { Vec::new() };
    asked.expect("default { } }");
    Ok(switch_type(&selector, &cases)?)
}

/// `x = y`, `x += y`, `x++`
fn assigned(asked: &mut Asked) -> Result<Type, Refusal> {
    let x = expression(asked)?;
    if asked.take("++") || asked.take("--") {
        return increment(&x);
    }
    let operator = asked.until(|c| c == ' ');
    let y = expression(asked)?;
    let found = assign_by(operator.parse().expect(operator), &x, &y);
    if operator == "=" {
        assert_eq!(assign(&x, &y), found);
    }
    found
}

/// The layout as the file has it: the stride of the array at the end is the size of its one element.
fn layout_text(structure: StructType) -> String {
    let Some(StructLayout { members, size, align }) = structure.min_layout() else {
        return "none".to_string();
    };
    let offsets: Vec<String> = members.iter().map(|member| member.offset.to_string()).collect();
    let stride = members.last().map_or(0, |member| member.size);
    let offsets = offsets.join(" ");
    format!("offsets {offsets}; size {size}; alignment {align}; stride {stride}")
}

/// A refusal as the file has it, its fields as they display.
fn variant(refusal: &Refusal) -> String {
    macro_rules! shown {
        ($($variant:ident($($field:ident),*))*) => {
            match refusal {
                $(Refusal::$variant($($field),*) => {
                    format!("{}({})", stringify!($variant), [$($field.to_string()),*].join(", "))
                })*
                without_fields => format!("{without_fields:?}"),
            }
        };
    }
    shown! {
        Component(t, name) NotIndexable(t) NotInteger(t) NotConstructible(t) NotScalar(t) NotReference(t)
        NotInSpace(space, t) Initialized(space) AccessMode(space, access) NotCondition(t) NotReturned(expected, t)
        Conversion(t, to) WriteRefType(t, to) Unary(operator, t) Binary(operator, a, b)
        ParamCount(name, takes, count) ParamType(expected, t) Builtin(text)
    }
}

/// A refused list names the value to blame, and none if it is no value's fault.
#[test]
fn misfits() {
    let s = Type::from(StructType::new("S", [("a", Type::F32), ("b", Type::U32)]));
    let operands = |all: &str| types(all).into_iter().map(Operand::constant).collect::<Vec<_>>();
    for [asked, values, others, blamed] in rows("tables/misfits.tsv") {
        let of = operands(&values);
        let misfit = match &*asked {
            "fit" => fit("f", &of, &types(&others)).unwrap_err(),
            "struct" => construct_struct(&s, &of).unwrap_err(),
            "scalar" => construct_struct(&Type::F32, &of).unwrap_err(),
            "array" => construct_array(&of).unwrap_err(),
            "three floats" => construct_array_of(&Type::F32, Some(3), &of).unwrap_err(),
            "switch" => switch_type(&of[0], &operands(&others)).unwrap_err(),
            _ => panic!("{asked}"),
        };
        let index = misfit.index.map_or("none".to_string(), |index| index.to_string());
        assert_eq!(index, blamed, "{asked} of `{values}`, `{others}`");
    }
    let cases = [Operand::constant(Type::I32), Operand::new(Type::I32), Operand::new(Type::I32)];
    assert_eq!(switch_type(&cases[0], &cases).unwrap_err().index, Some(1));
}
