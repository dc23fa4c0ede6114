//! Makes a call of the Rust crate as often as it is told: `calls LINE TIMES`. The status is 1 if it has no such call.
use std::hint::black_box;
use wgsl_types_proved::builtin::{type_binary_op, type_builtin_fn, type_ctor, type_unary_op};
use wgsl_types_proved::conv::{conversion_rank, convert_all_ty};
use wgsl_types_proved::inst::LiteralInstance;
use wgsl_types_proved::standard::{assign, load, type_of_index, type_of_member, Operand};
use wgsl_types_proved::syntax::BinaryOperator::{self, Addition, Multiplication, ShiftLeft};
use wgsl_types_proved::syntax::{AccessMode::ReadWrite, AddressSpace::Function};
use wgsl_types_proved::syntax::{SampledType, UnaryOperator::Negation};
use wgsl_types_proved::tplt::TpltParam;
use wgsl_types_proved::ty::{StructType, TextureType, Type};

const INT: Type = Type::AbstractInt;
const FLOAT: Type = Type::AbstractFloat;

/// A call, and how often it is made.
struct Call {
    line: String,
    times: usize,
}

impl Call {
    fn repeat<T>(&self, call: impl Fn() -> T) {
        for _ in 0..self.times {
            drop(black_box(call()));
        }
    }

    fn rank(&self, a: Type, b: Type) {
        self.repeat(|| conversion_rank(black_box(&a), black_box(&b)))
    }

    fn binary(&self, operator: BinaryOperator, a: Type, b: Type) {
        self.repeat(|| type_binary_op(black_box(operator), black_box(&a), black_box(&b)))
    }

    fn constructor(&self, name: &str, template: Option<&[TpltParam]>, arguments: &[Type]) {
        self.repeat(|| type_ctor(black_box(name), black_box(template), black_box(arguments)))
    }

    fn function(&self, name: &str, arguments: &[Type]) {
        self.repeat(|| type_builtin_fn(black_box(name), None, black_box(arguments)))
    }

    fn make(&self) -> bool {
        let (vec, mat) = (Type::vector, |columns, rows| Type::matrix(columns, rows, Type::F32));
        let array = |of| Type::array(Some(2), vec(3, of));
        let members = [("a", Type::F32), ("b", vec(3, Type::F32)), ("c", Type::F32)];
        let structure = Type::from(StructType::new("S", members));
        let texture = Type::Texture(TextureType::Sampled2D(SampledType::F32));
        let three = TpltParam::Instance(LiteralInstance::AbstractInt(3).into());
        let template = [TpltParam::Type(Type::F32), three];
        match self.line.as_str() {
            "rank AbstractInt f32" => self.rank(INT, Type::F32),
            "rank vec 3 AbstractInt vec 3 f32" => self.rank(vec(3, INT), vec(3, Type::F32)),
            "rank array 2 vec 3 AbstractInt array 2 vec 3 f32" => {
                self.rank(array(INT), array(Type::F32))
            }
            "rank i32 f32" => self.rank(Type::I32, Type::F32),
            "common AbstractInt f32 AbstractFloat AbstractInt" => {
                let types = [INT, Type::F32, FLOAT, INT];
                self.repeat(|| convert_all_ty(black_box(&types)).is_some())
            }
            "unary - f32" => {
                self.repeat(|| type_unary_op(black_box(Negation), black_box(&Type::F32)))
            }
            "binary + i32 AbstractInt" => self.binary(Addition, Type::I32, INT),
            "binary + AbstractInt vec 3 f32" => self.binary(Addition, INT, vec(3, Type::F32)),
            "binary * mat 2 3 f32 mat 4 2 f32" => self.binary(Multiplication, mat(2, 3), mat(4, 2)),
            "binary << vec 3 i32 vec 3 AbstractInt" => {
                self.binary(ShiftLeft, vec(3, Type::I32), vec(3, INT))
            }
            "binary + bool i32" => self.binary(Addition, Type::Bool, Type::I32),
            "size vec 3 f32" => {
                let vector = vec(3, Type::F32);
                self.repeat(|| black_box(&vector).size_of())
            }
            "size struct S 3 a - - f32 b - - vec 3 f32 c - - f32" => {
                self.repeat(|| black_box(&structure).size_of())
            }
            "ctor vec4 - vec 2 f32 AbstractInt AbstractInt" => {
                self.constructor("vec4", None, &[vec(2, Type::F32), INT, INT])
            }
            "ctor array < t f32 n 3 > AbstractInt AbstractInt f32" => {
                self.constructor("array", Some(&template), &[INT, INT, Type::F32])
            }
            "ctor mat2x2 - AbstractInt f32 AbstractInt f32" => {
                self.constructor("mat2x2", None, &[INT, Type::F32, INT, Type::F32])
            }
            "call abs - f32" => self.function("abs", &[Type::F32]),
            "call clamp - AbstractInt f32 AbstractFloat" => {
                self.function("clamp", &[INT, Type::F32, FLOAT])
            }
            "call frexp - vec 2 f32" => self.function("frexp", &[vec(2, Type::F32)]),
            "call textureLoad - texture_2d f32 vec 2 i32 i32" => {
                self.function("textureLoad", &[texture, vec(2, Type::I32), Type::I32])
            }
            "call foo - f32" => self.function("foo", &[Type::F32]),
            "call abs - bool" => self.function("abs", &[Type::Bool]),
            _ => return self.make_form(),
        }
        true
    }
}

/// Forms of expressions and statements, by WGSL's rules.
impl Call {
    /// As `repeat`, but the answer is let go where it lies: `black_box` doesn't move it.
    fn repeat_form<T>(&self, call: impl Fn() -> T) {
        for _ in 0..self.times {
            black_box(&call());
        }
    }

    fn make_form(&self) -> bool {
        let vector = Type::vector(3, Type::F32);
        let behind = |ty| Operand::new(Type::Ref(Function, Box::new(ty), ReadWrite));
        let (variable, number) = (behind(vector.clone()), behind(Type::F32));
        let (vector, i, one) = (Operand::new(vector), Operand::new(Type::U32), Operand::new(INT));
        match self.line.as_str() {
            "member vec 3 f32 y" => {
                self.repeat_form(|| type_of_member(black_box(&vector), black_box("y")))
            }
            "member ref function read_write vec 3 f32 y" => {
                self.repeat_form(|| type_of_member(black_box(&variable), black_box("y")))
            }
            "index vec 3 f32 u32" => {
                self.repeat_form(|| type_of_index(black_box(&vector), black_box(&i)))
            }
            "load ref function read_write f32" => self.repeat_form(|| load(black_box(&number))),
            "assign = ref function read_write f32 AbstractInt" => {
                self.repeat_form(|| assign(black_box(&number), black_box(&one)))
            }
            _ => return false,
        }
        true
    }
}

fn main() {
    let mut words = std::env::args().skip(1);
    let line = words.next().unwrap_or_default();
    let times = words.next().and_then(|word| word.parse().ok()).unwrap_or(0);
    std::process::exit(i32::from(!Call { line, times }.make()));
}
