override LATER: u32 = 3;
const MINUS = -1;
const REAL = 1.5;
const BIG = 9223372036854775807 + 1;
const SUM = 1u + 1i;
const NEGATIVE = -1u;
const QUOTIENT = 1 / (2 - 2);
const TURN = 1u << 32;
const NEEDS_BIG = BIG;
const TYPED: u32 = MINUS;
struct Known { a: array<f32, LATER> }
struct None { a: array<f32, 0> }
struct Fewer { a: array<f32, MINUS> }
struct Real { a: array<f32, REAL> }
struct Bool { a: array<f32, 1 < 2> }
struct Missing { a: Nowhere }
struct Comma { a: f32 b: f32 }
struct Itself { a: array<Itself, 2> }
struct One { a: Other }
struct Other { a: One }
alias Turned = array<Turned, 1>;
struct Early { a: array<f32>, b: f32 }
struct Inside { a: array<Ends, 2> }
struct Ends { a: array<f32> }
struct Empty {}
struct Odd { @align(3) a: f32 }
struct Small { @size(2) a: f32 }
struct Below { @size(-1) a: f32 }
struct Image { a: texture_2d<f32> }
struct Vectors { a: vec4<vec2<f32>> }
struct Whole { a: mat2x2<i32> }
struct Atomic { a: atomic<f32> }
struct Large { a: array<f32, 1073741824> }
struct Faulty { a: Missing, b: Itself }
struct Known { a: f32 }
struct Reference { a: ref<function, i32, read> }
struct Right { a: f32 }
foo bar;
alias = f32;
@group(0) @binding(0) var<unifrm> space: Right;
@group(0) @binding(1) var texture: texture_2d<bool>;
@group(0) @binding(2) var stored: texture_storage_2d<rgba, write>;
struct Open { a: f32,
struct After { a: Right }
fn f() {
