// Line comments end at each of WGSL's line breaks, and not at its other blanks beyond ASCII, U+200E and U+200F.
struct Breaks {
    // U+000Bu_000b: f32,
    // U+000Cu_000c: f32,
    // U+000Du_000d: f32,
    // U+0085u_0085: f32,
    // U+2028 u_2028: f32,
    // U+2029 u_2029: f32,
    // U+200E‎u_200e: f32,
    // U+200F‏u_200f: f32,
}
