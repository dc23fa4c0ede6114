//! Random numbers, types and calls.

use crate::{asked::one_type, tables::rows};
use std::sync::LazyLock;
use wgsl_types_proved::standard::Operand;
use wgsl_types_proved::syntax::{AccessMode, AddressSpace, BinaryOperator, UnaryOperator};
use wgsl_types_proved::Type;
use AddressSpace::{Function, Handle, Private, PushConstant, Storage, Uniform, Workgroup};
use Type::{AbstractFloat, AbstractInt, Bool, F16, F32, F64, I32, I64, U32, U64};

const SCALARS: [Type; 10] = [Bool, AbstractInt, AbstractFloat, I32, U32, F32, F16, I64, U64, F64];
const SPACES: [AddressSpace; 7] =
    [Function, Private, Workgroup, Uniform, Storage, Handle, PushConstant];
const ACCESS_MODES: [AccessMode; 4] =
    [AccessMode::Read, AccessMode::Write, AccessMode::ReadWrite, AccessMode::Atomic];
const CALLED: &str = "array f32 u32 vec2 vec3 vec4 mat2x2 mat3x2 bitcast min clamp dot select frexp modf abs length \
    transpose countOneBits pow insertBits arrayLength workgroupBarrier no_such_name";

static STRANGE: LazyLock<Vec<Type>> =
    LazyLock::new(|| rows("tables/strange.tsv").iter().map(|[text]| one_type(text)).collect());

/// Numbers by Marsaglia's xorshift.
pub struct Random(u64);

impl Random {
    pub fn new(seed: u64) -> Random {
        Random(seed.wrapping_mul(0x9e37_79b9_7f4a_7c15) | 1)
    }

    /// A number below another.
    pub fn number(&mut self, bound: usize) -> usize {
        self.0 ^= self.0 << 13;
        self.0 ^= self.0 >> 7;
        self.0 ^= self.0 << 17;
        (self.0 >> 33) as usize % bound
    }

    fn of<T: Clone>(&mut self, values: &[T]) -> T {
        values[self.number(values.len())].clone()
    }

    /// A scalar or a vector, mostly.
    fn value(&mut self) -> Type {
        let scalar = self.of(&SCALARS);
        match self.number(6) {
            0 | 1 => Type::vector(2 + self.number(2) as u8, scalar),
            2 => Type::matrix(2 + self.number(2) as u8, 2, scalar),
            3 => self.of(&STRANGE),
            _ => scalar,
        }
    }

    pub fn binary_operator(&mut self) -> BinaryOperator {
        self.of(&BinaryOperator::ALL)
    }

    pub fn unary_operator(&mut self) -> UnaryOperator {
        self.of(&UnaryOperator::ALL)
    }

    /// An operand, which is now and then a const-expression or a reference.
    pub fn operand(&mut self) -> Operand {
        let ty = self.value();
        match self.number(8) {
            0 => Operand::new(Type::Ref(self.of(&SPACES), Box::new(ty), self.of(&ACCESS_MODES))),
            1..=4 => Operand::constant(ty),
            _ => Operand::new(ty),
        }
    }

    /// A name, a template and operands, for WGSL's own overloads. Of two operands one is often as the first.
    pub fn call(&mut self) -> (&'static str, Option<Type>, Vec<Operand>) {
        let name = self.of(&CALLED.split(' ').collect::<Vec<_>>());
        let template = (self.number(4) == 0).then(|| self.value());
        let operand = if self.number(2) == 0 { Operand::constant } else { Operand::new };
        let first = self.value();
        let operands = (0..self.number(5)).map(|_| match self.number(2) {
            0 => operand(first.clone()),
            _ => operand(self.value()),
        });
        (name, template, operands.collect())
    }
}
