//! Texts of a megabyte: each call that reads text answers or refuses them on a small stack, in a debug build too.

use std::thread;
use wgsl_types_proved::builtin::{is_ctor, type_ctor};
use wgsl_types_proved::module::check;
use wgsl_types_proved::requests::{answer, standard_answer, Error};
use wgsl_types_proved::source::{code, layouts, types, Language};
use wgsl_types_proved::standard::overloads;
use wgsl_types_proved::syntax::{BinaryOperator, Enumerant};
use wgsl_types_proved::Type;

const LENGTH: usize = 1 << 20;

/// What opens a level, and tokens that have no end, with `|` between them.
const REPEATED: &str =
    "vec2<|array<|atomic<|binding_array<|ptr<function,|ref<function, |<|>|,|(|[|{|-|&|*|a.|\
    a[|f(|array(|1+|1<<|/*|@align(|struct S {|if (|1|a|0x1|.|1e|é| |\n|\0";

/// The longest message: a token in it is cut.
const MESSAGE: usize = 300;

fn read(repeated: &str) {
    let text = repeated.repeat(LENGTH / repeated.len());
    let refused = text.parse::<Type>().unwrap_err();
    assert!(refused.message.len() < MESSAGE, "{repeated}: {}", refused.message.len());
    for head in ["alias A = ", "const a = ", "struct S { a: ", "fn f() { "] {
        let file = format!("{head}{text}");
        let module = layouts(&file);
        assert!(!module.errors.is_empty() || head == "fn f() { ", "{head}{repeated}");
        assert!(types(&file).is_empty(), "{head}{repeated}");
        for message in module.errors.iter().chain(&module.findings) {
            assert!(message.text.len() < MESSAGE, "{head}{repeated}: {}", message.text.len());
        }
    }
    for fault in check(&format!("fn f() {{ {text}")).faults {
        assert!(fault.message.len() < MESSAGE, "{repeated}: {}", fault.message.len());
    }
    assert!(code(format!("struct S {{ a: {text}"), Language::C).is_err(), "{repeated}");
    assert!(matches!(answer(&text), Err(Error::Unreadable(_))), "{repeated}");
    let asked = format!("type {text}");
    assert!(matches!(standard_answer(&asked), Err(Error::Unreadable(_))), "{repeated}");
    assert_eq!((text.parse::<Enumerant>(), text.parse::<BinaryOperator>()), (Err(()), Err(())));
    assert!(!is_ctor(&text) && overloads(&text).is_empty() && type_ctor(&text, None, &[]).is_err());
}

#[test]
fn each_call_reads_a_megabyte_on_a_small_stack() {
    let start = |repeated| {
        thread::Builder::new().stack_size(512 << 10).spawn(move || read(repeated)).unwrap()
    };
    let threads: Vec<_> = REPEATED.split('|').map(start).collect();
    threads.into_iter().for_each(|thread| thread.join().unwrap());
}
