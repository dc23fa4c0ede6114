// Each comparison and short-circuit operator, true and false; operators without parentheses; lists that end in a comma; and
// constants that stand behind what needs them.
enable f16;
struct Ordered { @align(ALIGN) first: f32, @size(SIZE) second: array<f32, COUNT> }
const SIZE = TWICE * 16;
const ALIGN = HALF_ALIGN + 8;
const HALF_ALIGN = 8;
const COUNT = THIRD + 1;
const THIRD = 4;
alias Late = array<Later, TWICE>;
struct Later { a: Latest }
const TWICE = 1u + 1;
struct Latest { a: f32 }

struct Compared {
    @size(select(8, 12, 1 < 2)) less: f32,
    @size(select(8, 12, 2 < 2)) not_less: f32,
    @size(select(8, 12, 2 <= 2)) at_most: f32,
    @size(select(8, 12, 3 <= 2)) not_at_most: f32,
    @size(select(8, 12, 2 > 1)) greater: f32,
    @size(select(8, 12, 2 > 2)) not_greater: f32,
    @size(select(8, 12, 2 >= 2)) at_least: f32,
    @size(select(8, 12, -1 >= 2)) not_at_least: f32,
    @size(select(8, 12, 2 == 2u)) equal: f32,
    @size(select(8, 12, 2i == 3)) not_equal: f32,
    @size(select(8, 12, 2 != 3)) unequal: f32,
    @size(select(8, 12, 2 != 2)) not_unequal: f32,
    @size(select(8, 12, true == true)) both_hold: f32,
    @size(select(8, 12, true == false)) not_both: f32,
    @size(select(8, 12, true != false)) only_one: f32,
    @size(select(8, 12, false != false)) not_one: f32,
}

struct Logical {
    @size(select(8, 12, true && true)) and: f32,
    @size(select(8, 12, true && false)) not_and: f32,
    @size(select(8, 12, false || true)) or: f32,
    @size(select(8, 12, false || false)) not_or: f32,
    @size(select(8, 12, true & true)) bits: f32,
    @size(select(8, 12, true & false)) not_bits: f32,
    @size(select(8, 12, true | false)) either: f32,
    @size(select(8, 12, false | false)) neither: f32,
    @size(select(8, 12, !false)) not: f32,
    @size(select(8, 12, !!false)) not_not: f32,
}

struct Ranked {
    @size(select(8, 12, 1 << 2 < 5)) shifted: f32,
    @size(select(8, 12, 5 < 16 >> 1)) shifted_right: f32,
    @size(select(8, 12, 1 << 2 == 4 && true)) shift_and: f32,
    @size(select(8, 12, true && 2 + 3 * 4 == 14)) sum_and: f32,
    @size(select(8, 12, 1 > 2 || 3 != 4 || false)) or_or: f32,
    @size(select(8, 12, (1 > 2 || 3 != 4) && false)) or_and: f32,
    @size(select(8, 12, -1 + 2 > 0 && !(2 < 1) && true)) signs: f32,
    @size(select(8, 12, ~0u - 1 > 7 % 4 * 2)) unary: f32,
}

struct Listed {
    @size(bitcast<u32,>(8),) bits: f32,
    @align(16,) pair: vec2<f32,>,
    @size(min(12, 16,),) least: array<f32, 2,>,
    matrix: mat2x2<f32,>,
    @size(i32(8.5h)) half: f32,
    @size(i32(1E1)) exponent: f32,
    @size(u32(0X0Cu)) hexadecimal: f32,
    ends: array<f32,>,
}
@group(0,) @binding(0,) var<storage,> read: Listed;
@group(0) @binding(1) var<storage, read_write,> written: Listed;
@group(0) @binding(2) var image: texture_storage_2d<r32float, write,>;
@group(0) @binding(3) var sampled: texture_2d<f32,>;
alias Pointer = ptr<function, f32,>;
var<private,> own: array<vec3<u32,>, COUNT,>;

override N: u32 = 4;
var<workgroup> by_override: array<f32, N>;
var<workgroup> by_product: array<f32, 2 * N>;
var<workgroup> by_sum: array<f32, (N + 1) * 2>;
