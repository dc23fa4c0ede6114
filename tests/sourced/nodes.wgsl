// As a generator writes it: blanks inside parentheses, a ; behind each struct, variables without a type.

diagnostic( off, derivative_uniformity );

// system
var<private> instanceIndex : u32;

// structs
struct NodeVaryingsStruct {
	@location( 0 ) nodeVarying0 : vec3<f32>,
	@location( 1 ) @interpolate( flat, either ) nodeVarying1 : u32,
	@builtin( position ) builtinClipSpace : vec4<f32>
};
var<private> varyings : NodeVaryingsStruct;

// uniforms
struct renderStruct {
	cameraProjectionMatrix : mat4x4<f32>,
	cameraNear : f32,
	cameraPosition : vec3<f32>
};
@binding( 0 ) @group( 0 )
var<uniform> render : renderStruct;

struct objectStruct {
	nodeUniform0 : mat4x4<f32>,
	nodeUniform1 : mat3x3<f32>,
	nodeUniform2 : vec3<f32>,
	nodeUniform3 : f32,
	nodeUniform4 : vec2<f32>,
	nodeUniform5 : mat2x2<f32>,
	nodeUniform6 : mat3x4<f32>,
};
@binding( 0 ) @group( 1 )
var<uniform> object : objectStruct;

struct NodeBuffer_563Struct {
	value : array< vec4<f32>, 32 >
};
@binding( 1 ) @group( 1 )
var<uniform> NodeBuffer_563 : NodeBuffer_563Struct;

struct NodeBuffer_564Struct {
	value : array< mat4x4<f32> >
};
@binding( 2 ) @group( 1 )
var<storage, read_write> NodeBuffer_564 : NodeBuffer_564Struct;

@binding( 3 ) @group( 1 ) var nodeUniform7_sampler : sampler;
@binding( 4 ) @group( 1 ) var nodeUniform7 : texture_2d< f32 >;
@binding( 5 ) @group( 1 ) var nodeUniform8 : texture_storage_2d< rgba8unorm, write >;
@binding( 6 ) @group( 1 ) var nodeUniform9 : texture_multisampled_2d< u32 >;

// codes
fn tri_noise3D ( position : vec3<f32>, speed : f32, time : f32 ) -> f32 {
	var p : vec3<f32> = position; var z : f32 = 1.4;
	loop { z = z * 1.5; if ( z > 4.0 ) { break; } continuing { z += 1.0; } }
	while ( z >= 2.0 ) { z -= 1.0; }
	return z;
}

@vertex
fn main( @builtin( instance_index ) instanceIndexIn : u32, @location( 0 ) position : vec3<f32> ) -> NodeVaryingsStruct {
	instanceIndex = instanceIndexIn;
	varyings.builtinClipSpace = render.cameraProjectionMatrix * object.nodeUniform0 * vec4<f32>( position, 1.0 );
	return varyings;
}
