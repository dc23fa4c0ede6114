struct Particle {
  pos : vec2f,
  vel : vec2f,
}
struct SimParams {
  deltaT : f32,
  rule1Distance : f32,
  rule2Distance : f32,
  rule3Distance : f32,
  rule1Scale : f32,
  rule2Scale : f32,
  rule3Scale : f32,
}
struct Particles {
  particles : array<Particle>,
}
@binding(0) @group(0) var<uniform> params : SimParams;
@binding(1) @group(0) var<storage, read> particlesA : Particles;
@binding(2) @group(0) var<storage, read_write> particlesB : Particles;

@compute @workgroup_size(64)
fn main(@builtin(global_invocation_id) GlobalInvocationID : vec3u) {
  var index = GlobalInvocationID.x;
  var vPos = particlesA.particles[index].pos;
  for (var i = 0u; i < arrayLength(&particlesA.particles); i++) {
    if (i == index) { continue; }
    if (distance(particlesA.particles[i].pos, vPos) < params.rule1Distance) { vPos += particlesA.particles[i].pos; }
  }
  particlesB.particles[index].pos = vPos;
}
