// Each extension of WGSL, attributes and types of a browser or of naga, and what its findings and the JSON say of them.
enable f16, clip_distances, dual_source_blending, primitive_index, subgroups, subgroup_size_control;
enable atomic_vec2u_min_max,;
enable chromium_experimental;
requires buffer_view, fragment_depth, immediate_address_space, linear_indexing, packed_4x8_integer_dot_product;
requires pointer_composite_access, readonly_and_readwrite_storage_textures, subgroup_id, subgroup_uniformity;
requires swizzle_assignment, texture_and_sampler_let, texture_formats_tier1, texture_formats_tier2;
requires uniform_buffer_standard_layout, unrestricted_pointer_parameters,;
requires chromium_anything;
diagnostic(off, derivative_uniformity);
diagnostic(warning, chromium.unreachable_code,);

struct Wide { signed: i64, late: Last, unsigned: u64, double: f64, @color(0) foreign: vec3<f64> }
override N = 2u;
@group(0) @binding(0) var images: binding_array<texture_2d<f32>, 4>;
@group(0) @binding(1) var samplers: binding_array<sampler, N>;
@group(0) @binding(2) var more: binding_array<texture_depth_2d>;
@group(0) @binding(3) var scene: acceleration_structure<vertex_return>;
@group(0) @binding(4) @input_attachment_index(0) var plain_scene: acceleration_structure;
var<private> query: ray_query<vertex_return>;
var<private> plain_query: ray_query;
var<private> to_uniform: ptr<uniform, array<vec4f, 2>>;
var<private> to_written: ptr<storage, Wide, read_write>;
var<private> to_read: ptr<storage, array<u32>>;
var<push_constant> constants: vec2u;

@compute @workgroup_size(8) fn first() {}
@compute @workgroup_size(8, 4,) fn second() {}
@compute @workgroup_size(8u, N, 2) @diagnostic(off, a) @diagnostic(info, b.c,) fn third() {}
@early_depth_test(less, 1 + 2) @fragment fn fourth() {}
@vertex fn fifth() -> @builtin(position) vec4f { return vec4f(); }
@must_use @subgroup_size(N) fn no_entry() -> f32 { return 1; }
alias Last = array<u64, 2>;
