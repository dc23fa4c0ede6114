// What stands in `immediate`, and what does not.
requires immediate_address_space;
struct Right { a: u32, b: mat4x4f }
struct Wrong { a: array<u32, 2>, b: Inner, c: vec2<bool> }
struct Inner { a: atomic<u32> }
alias Pointer = ptr<immediate, Right>;
alias Said = ptr<immediate, Right, read>;
var<immediate> right: Right;
var<immediate> wrong: Wrong;
var<immediate> many: array<vec4f, 2>;
var<immediate> valued: u32 = 1;
var<immediate, read> said: u32;
@group(0) @binding(0) var<immediate> bound: f32;
var<push_constant> other: u32;
