// A struct inside another.
const COUNT = 4u;
alias Color = vec3f;

struct Light { color: Color, power: f32, cone: vec2<f32> }

struct Scene {
  view_proj: mat4x4<f32>,
  lights: array<Light, COUNT>,
  weights: array<f32, COUNT - 1>,
}

struct Particles { count: u32, items: array<vec4f> }

@group(0) @binding(0) var<uniform> scene: Scene;
@group(0) @binding(1) var<storage, read_write> particles: Particles;
