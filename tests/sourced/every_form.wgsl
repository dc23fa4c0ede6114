// Every form of declaration.
enable f16;
requires readonly_and_readwrite_storage_textures;
diagnostic(off, derivative_uniformity);

/* Constants of each type /* in any order */ */
const TWO_TIMES = 2 * COUNT;
const COUNT = 4u;
const SIGNED: i32 = -0x10 / -2i;
const OTHERS = vec3(1.5, 2.0, f32(COUNT));
const IS_BIG = COUNT > 3;
const_assert COUNT < 5 && IS_BIG;
@id(7) override workgroup_size: u32 = 64;

alias Color = vec3<f32>;
alias Grid = array<array<Color, COUNT>, (1 << 2) - 1>;

struct Light {
    @size(16) color: Color,
    @align(32) position: vec3f,
    intensity: f16,
    is_on: u32,
}

struct Scene {
    view_proj: mat4x4f,
    normal: mat3x3<f32>,
    half: mat2x3h,
    lights: array<Light, SIGNED>,
    grid: Grid,
    counts: array<vec4<u32>, (TWO_TIMES >> 1)>,
};

struct Particles {
    count: atomic<u32>,
    @builtin(position) seed: vec2<i32>,
    items: array<Light>,
}

struct Varying {
    @builtin(position) position: vec4f,
    @location(0) @interpolate(flat, either) color: vec4<f32>,
}

@group(0) @binding(0) var<uniform> scene: Scene;
@group(0) @binding(COUNT - 3) var<storage, read_write> particles: Particles;
@binding(2) @group(0) var<storage> raw: array<vec3h>;
@group(1) @binding(0) var linear: sampler;
@group(1) @binding(1) var shadow: sampler_comparison;
@group(1) @binding(2) var image: texture_2d_array<f32>;
@group(1) @binding(3) var depth: texture_depth_cube;
@group(1) @binding(4) var target_image: texture_storage_2d<rgba8unorm, write>;
var<workgroup> shared_counts: array<atomic<i32>, COUNT * 16>;
var<private> seed = 7u;
var<private> on: bool = true;
var<immediate> offset: vec2u;

fn shade(a: Light, b: ptr<function, f32>) -> vec4f {
    for (var i = 0; i < 3; i++) { if (i > 2) { return vec4f(1.0); } }
    return vec4<f32>(a.color, select(1.0, 0.0, i < 2));
}

@compute @workgroup_size(workgroup_size, 1, 1)
fn main(@builtin(global_invocation_id) id: vec3<u32>) { _ = id; }
