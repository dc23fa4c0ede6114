// A scene
const COUNT = 4u;
alias Color = vec3f;
struct Light { color: Color, @size(16) power: f32, position: vec3<f32>, }
struct Scene {
  view_proj: mat4x4<f32>,
  eye: vec3<f32>,
  time: f32,
  lights: array<Light, COUNT>,
  weights: array<f32, (1 << 2)>,
}
struct Particles { count: u32, items: array<Light> }
@group(0) @binding(0) var<uniform> scene: Scene;
@group(0) @binding(1) var<storage, read_write> particles: Particles;
@group(0) @binding(2) var tex: texture_2d<f32>;
@group(0) @binding(3) var<storage> raw: array<vec3f>;
var<private> seed: u32 = 1;
@fragment fn main() -> @location(0) vec4f { return vec4f(1.0); }
