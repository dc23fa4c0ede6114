// Lights of a renderer with clusters and cascades.
enable f16, subgroups;
requires readonly_and_readwrite_storage_textures, packed_4x8_integer_dot_product;
diagnostic(off, derivative_uniformity);
diagnostic(warning, vendor.rule,);

const MAX_LIGHTS: u32 = 10u;
const MAX_CASCADES = 4;
const_assert MAX_LIGHTS * u32(MAX_CASCADES) <= 40;
const_assert(MAX_CASCADES == (1 << 2) || false);

struct Cascade {
    clip_from_world: mat4x4<f32>,
    texel_size: f32,
    far_bound: f32,
}

struct DirectionalLight {
    cascades: array<Cascade, MAX_CASCADES>,
    color: vec4<f32>,
    direction_to_light: vec3<f32>,
    flags: u32,
    soft_shadow_size: f32,
    shadow_depth_bias: f32,
    shadow_normal_bias: f32,
    num_cascades: u32,
    cascades_overlap_proportion: f32,
    depth_texture_base_index: u32,
    skip: u32,
};

struct Lights {
    directional_lights: array<DirectionalLight, MAX_LIGHTS>,
    ambient_color: vec4<f32>,
    cluster_dimensions: vec4<u32>,
    cluster_factors: vec4<f32>,
    n_directional_lights: u32,
    spot_light_shadowmap_offset: i32,
}

struct ClusterableObject {
    light_custom_data: vec4<f32>,
    color_inverse_square_range: vec4<f32>,
    position_radius: vec4<f32>,
    flags: u32,
    shadow_depth_bias: f32,
    shadow_normal_bias: f32,
    spot_light_tan_angle: f32,
    soft_shadow_size: f32,
    pad_a: f32,
    pad_b: f32,
    pad_c: f32,
}

struct ClusterableObjects { data: array<ClusterableObject>, };
struct Indices { data: array<u32>, }
struct Offsets { data: array<array<vec4<u32>, 2>>, }

struct Packed {
    tint: vec3h,
    roughness: f16,
    normal: vec2<f16>,
    basis: mat3x2<f16>,
    id: u32,
}

@group(0) @binding(0) var<uniform> lights: Lights;
@group(0) @binding(1) var point_shadow_textures: texture_depth_cube_array;
@group(0) @binding(2) var point_shadow_sampler: sampler_comparison;
@group(0) @binding(3) var directional_shadow_textures: texture_depth_2d_array;
@group(0) @binding(4) var<storage> clusterable_objects: ClusterableObjects;
@group(0) @binding(5) var<storage, read> index_lists: Indices;
@group(0) @binding(6) var<storage, read> offsets_and_counts: Offsets;
@group(0) @binding(7) var<storage, read_write> packed: array<Packed>;
@group(0) @binding(8) var fog: texture_storage_3d<rgba16float, read_write>;
@group(0) @binding(9) var video: texture_external;

@must_use
fn cluster_index(frag_coord: vec2<f32>, view_z: f32, is_orthographic: bool) -> u32 {
    let xy = vec2<u32>(floor((frag_coord - vec2(0.0)) * lights.cluster_factors.xy));
    if view_z < 0.0 && xy.x > 2u { return min((xy.y * 4u) >> 2u, 1u << 4u); }
    switch xy.x { case 0, 1: { return 0u; } default: { discard; } }
    for (var i: u32 = 0u; i < lights.n_directional_lights; i++) { _ = lights.directional_lights[i].flags & 1u; }
    return select(0u, 1u, is_orthographic);
}

@fragment
fn fragment(@builtin(position) frag_coord: vec4<f32>, @location(0) @interpolate(flat, either,) id: u32,) -> @location(0) vec4<f32> {
    return vec4<f32>(f32(cluster_index(frag_coord.xy, frag_coord.z, false)));
}
