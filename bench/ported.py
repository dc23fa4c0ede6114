"""Figures to compare with: instructions in wgsl-types 0.3.2 (rustc -O3, measured 2026-11), and of `type` in this repository."""

# A line; its instructions, where a program over the crate reads the same words; those of its call alone, its answer let go.
LINES = [
    ("rank AbstractInt f32", 1105, 62),
    ("rank vec 3 AbstractInt vec 3 f32", 2132, 129),
    ("rank array 2 vec 3 AbstractInt array 2 vec 3 f32", 3173, 229),
    ("rank i32 f32", 862, 53),
    ("common AbstractInt f32 AbstractFloat AbstractInt", 2142, 302),
    ("unary - f32", 947, 92),
    ("binary + i32 AbstractInt", 1282, 217),
    ("binary + AbstractInt vec 3 f32", 2428, 372),
    ("binary * mat 2 3 f32 mat 4 2 f32", 3292, 379),
    ("binary << vec 3 i32 vec 3 AbstractInt", 3125, 638),
    ("binary + bool i32", 1767, 279),
    ("size vec 3 f32", 1747, 72),
    ("size struct S 3 a - - f32 b - - vec 3 f32 c - - f32", 5011, 506),
    ("ctor vec4 - vec 2 f32 AbstractInt AbstractInt", 3747, 1020),
    ("ctor array < t f32 n 3 > AbstractInt AbstractInt f32", 3653, 680),
    ("ctor mat2x2 - AbstractInt f32 AbstractInt f32", 3280, 595),
    ("call abs - f32", 1481, 165),
    ("call clamp - AbstractInt f32 AbstractFloat", 2153, 352),
    ("call frexp - vec 2 f32", 3444, 1648),
    ("call textureLoad - texture_2d f32 vec 2 i32 i32", 3188, 343),
    ("call foo - f32", 2458, 673),
    ("call abs - bool", 2408, 634),
]

# A line; its instructions before expressions were read by WGSL's grammar, in the Rust crate's program `wgsl_standard` of that time.
# As `wgsl ask` does now, it read lines from its standard input and wrote one reply per line.
TYPES = [
    ("type 1 + 2", 3642),
    ("type dot(vec3f, vec3f)", 8532),
    ("type max(abs(f32), sqrt(min(f32, 2)))", 16740),
    ("type array<vec3<f32>, 2>(vec3f, vec3f)", 13338),
    ("type (mat4x4<f32> * vec4<f32>).xyz * vec3<f32>.x", 17829),
]
