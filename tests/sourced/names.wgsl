// What is wrong with names, operators, attributes and what a module doesn't enable.
struct Twice { a: f32, b: u32, a: f32 }
struct __hidden { a: f32 }
struct _ { a: f32 }
struct class { a: f32 }
struct Members { _: f32 }
struct Hidden { __a: f32 }
struct Reserved { filter: f32 }
struct Keyword { loop: f32 }
alias final = f32;
const _ = 1;
struct Half { a: f16 }
struct Halves { a: vec3h }
struct HalfMatrix { a: mat2x2<f16> }
alias HalfAlias = vec4<f16>;
const SUM_SHIFTED = 1 + 2 << 3;
const SHIFTED_BY_SUM = 1 << 2 + 3;
const SHIFTED_TWICE = 1 << 2 >> 1;
const AND_OR = 1 & 2 | 4;
const OR_XOR = 1 | 2 ^ 4;
const AND_SUM = 1 & 2 + 3;
const PRODUCT_XOR = 2 * 3 ^ 1;
const NEGATED = -1 + -2 * ~3 % 5 - (1 << 2) * (3 & 5 & 1) + (8 | 4 | 2) - (1 ^ 2 ^ 7);
struct Sized { @size(16) @align(4) @size(16) a: f32 }
struct Fine { @size(16) @align(16) a: f32, @size(NEGATED + 40) b: f32 }
@group(0) @group(1) @binding(0) var<uniform> twice_grouped: Fine;
@group(0) @binding(0) var<uniform, read> may_read: Fine;
@group(0) @binding(1) var<storage, write> written: Fine;
var<private, read_write> private_access: f32;
@group(0) @binding(2) var<storage, read_write> kept: Fine;
alias Other = Fine;
alias Another = Other;
struct Ends { count: u32, items: array<Another> }
alias OtherEnds = Ends;
alias AnotherEnds = OtherEnds;
@group(0) @binding(3) var<storage> ends: AnotherEnds;
@group(0) @binding(4) var<uniform> not_there: OtherEnds;
fn Fine() {}
var<private> fn: u32;
var<private> pass: u32;
override while = 1;
