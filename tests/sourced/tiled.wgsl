/* A blur over tiles: constants that need each other, chains of aliases,
   /* nested comments */ template lists that end in >>, and attributes with commas. */
alias Row = array<Pixel, TILE + 2 * BORDER>;
alias Tile = array<Row, (TILE) + BORDER * 2,>;
alias Pixel = Color;
alias Color = vec3<Channel>;
alias Channel = f32;
alias Block = Item;
alias Blocks = array<Block, HALF>;
alias Nested = array<array<array<vec2<u32>, 2>, 3>>;

const TILE = 1 << 4;
const BORDER: i32 = 1;
const HALF = u32(TILE) / 2u;
const MASK = 0xFFu & ~0xF0u & 15;
const ODD = (TILE * TILE - 1) | 1;
const LEAST = min(max(3, 5u), 4);
const FAR = 1e10 * -2.5;
const AXES = array(vec3f(1, 0, 0), vec3f(0, 1, 0));
const MANY = select(1, 2, TILE > 3);
const SIGN = -TILE + 20;

override wg_x: u32 = 8;
@id(1200) override wg_y = 8u;
override gain: f32;
@id(BORDER) override is_on: bool = true;

struct Item {
    @size(HALF * 2,) @align(8) first: f32,
    @align(16,) second: vec2<Channel>,
    third: array<u32, MASK>,
    fourth: array<vec2<f32>, (1 << 2)>,
    fifth: array<f32, LEAST>,
    sixth: array<i32, SIGN>,
    seventh: bool,
    eighth: vec4<bool>,
}

struct Params { filterDim: i32, blockDim: u32, blocks: Block, }
struct Flip { value: u32 }

@group(0,) @binding(0 + 1,) var samp: sampler;
@binding(HALF) @group(BORDER) var<uniform> params: Params;
@group(1) @binding(1) var inputTex: texture_2d<Channel>;
@group(1) @binding(2) var outputTex: texture_storage_2d<rgba8unorm, write,>;
@group(1) @binding(3) var<uniform> flip: Flip;
@group(1) @binding(4) var<storage, read_write,> nested: Nested;
@group(1) @binding(5) var<storage> ends: array<Block>;
@group(1) @binding(6) var<storage, read_write> counters: array<atomic<u32>, 0x10>;
@group(1) @binding(7) var textures: binding_array<texture_2d<f32>, 4>;

var<workgroup> tile: Tile;
var<workgroup> sums: array<array<vec3f, ODD>, HALF>;
var<workgroup> count: atomic<i32>;
var<private> blocks: Blocks;
var<private> start = vec4(0.0);

fn helper(p: ptr<workgroup, Tile>, q: ptr<function, array<f32, 4>>) -> array<vec4<f32>, 2> {
    var local: array<f32, TILE>; let a = local[0] < 1.0; let b = (local[1]) > (2.0);
    const INNER = 3; const_assert INNER < 4;
    return array<vec4<f32>, 2>();
}

@compute @workgroup_size(wg_x, wg_y, 1,)
fn main(
    @builtin(workgroup_id) WorkGroupID: vec3u,
    @builtin(local_invocation_id) LocalInvocationID: vec3u,
) {
    let filterOffset = (params.filterDim - 1) / 2;
    var i = 0u; i <<= 1u; i >>= 2u; i = (i << 1u) >> 2u;
    workgroupBarrier();
}
