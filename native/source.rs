//! What a WGSL file declares: the layouts of its structs, where its variables are bound, its overrides and its entry points
//! (WGSL, "Memory Layout").

mod code;
mod laid_out;
mod type_tree;

pub use crate::proved::wgsl_report::lines::Place;
use crate::proved::wgsl_source::entry;
use crate::syntax::{AccessMode, AddressSpace, Scalar};
use crate::ty::{SamplerType, TextureType, Type};
use alloc::{boxed::Box, collections::BTreeMap, string::String, vec::Vec};
pub use code::{code, Language, SourceError};
use core::fmt;
pub use entry::Stage;

/// What a module declares, and what is wrong with it.
#[derive(Clone, Debug, PartialEq, Eq, Hash)]
#[non_exhaustive]
pub struct Layouts {
    /// The structs that have a layout, in the order of the text.
    pub structs: Vec<Struct>,
    /// The names of the structs that have a fault, or use what has one, in the order of the text.
    pub left_out: Vec<String>,
    /// The variables of the module that lie in memory, in the order of the text.
    pub variables: Vec<Variable>,
    /// The overrides, in the order of the text.
    pub overrides: Vec<Override>,
    /// The entry points, in the order of the text.
    pub entry_points: Vec<EntryPoint>,
    /// What can't be read or laid out. The declarations after it are read all the same.
    pub errors: Vec<Message>,
    /// Rules of address spaces that a variable breaks, and uses of what only naga has.
    pub findings: Vec<Message>,
}

/// A struct, in bytes.
#[derive(Clone, Debug, PartialEq, Eq, Hash)]
#[non_exhaustive]
pub struct Struct {
    /// The name.
    pub name: String,
    /// Where its name stands.
    pub place: Place,
    /// The size. If the last member is a runtime-sized array, it counts with one element.
    pub size: u32,
    /// The alignment.
    pub align: u32,
    /// Whether the last member is a runtime-sized array.
    pub is_runtime_sized: bool,
    /// The members, in order.
    pub members: Vec<Member>,
}

/// A member of a struct, in bytes.
#[derive(Clone, Debug, PartialEq, Eq, Hash)]
#[non_exhaustive]
pub struct Member {
    /// The name.
    pub name: String,
    /// Where its name stands.
    pub place: Place,
    /// The type, with aliases resolved.
    pub ty: TypeTree,
    /// Where the member begins.
    pub offset: u32,
    /// The size.
    pub size: u32,
    /// The alignment.
    pub align: u32,
    /// The stride of the elements of an array, or of the columns of a matrix.
    pub stride: Option<u32>,
    /// The bytes between this member and the next one, or the end of the struct.
    pub padding: u32,
}

/// A variable of the module.
#[derive(Clone, Debug, PartialEq, Eq, Hash)]
#[non_exhaustive]
pub struct Variable {
    /// The name.
    pub name: String,
    /// Where its name stands.
    pub place: Place,
    /// The type, with aliases resolved.
    pub ty: TypeTree,
    /// The number of `@group`.
    pub group: Option<u32>,
    /// The number of `@binding`.
    pub binding: Option<u32>,
    /// The address space; that of `var<immediate>` is `PushConstant`.
    pub space: AddressSpace,
    /// The access mode.
    pub access: AccessMode,
    /// What is bound to the variable, if something is.
    pub resource: Option<Resource>,
    /// The size of the type in bytes, if it has one.
    pub size: Option<u32>,
    /// The minimum binding size in bytes, if a buffer is bound here.
    pub min_binding_size: Option<u32>,
}

/// A type as a module writes it, with aliases resolved. It displays as WGSL spells it.
#[derive(Clone, Debug, PartialEq, Eq, Hash)]
#[non_exhaustive]
pub enum TypeTree {
    /// A type that contains no array, no struct and no pointer.
    Leaf(Type),
    /// The struct with this name.
    Struct(String),
    /// An array.
    Array {
        /// The type of its elements.
        element: Box<TypeTree>,
        /// How many there are.
        count: ElementCount,
        /// The bytes from one element to the next, if the array is data.
        stride: Option<u32>,
    },
    /// naga's array of bindings.
    BindingArray {
        /// The type of its elements.
        element: Box<TypeTree>,
        /// How many there are.
        count: ElementCount,
    },
    /// A pointer.
    Pointer {
        /// The address space.
        space: AddressSpace,
        /// The type to which it points.
        target: Box<TypeTree>,
        /// The access mode.
        access: AccessMode,
    },
}

/// How many elements an array has.
#[derive(Clone, Copy, Debug, PartialEq, Eq, Hash)]
pub enum ElementCount {
    /// This number.
    Known(u32),
    /// As many as the buffer has room for.
    Runtime,
    /// The value of an override, which is known when the pipeline is created. It displays as `override`.
    Override,
}

/// What is bound to a variable (WebGPU, "GPUBindGroupLayoutEntry").
#[derive(Clone, Debug, PartialEq, Eq, Hash)]
#[non_exhaustive]
pub enum Resource {
    /// The buffer of a `var<uniform>`.
    UniformBuffer,
    /// The buffer of a `var<storage, read>`.
    ReadOnlyStorageBuffer,
    /// The buffer of a `var<storage, read_write>`.
    StorageBuffer,
    /// A sampler.
    Sampler(SamplerType),
    /// A texture.
    Texture(TextureType),
    /// What naga adds: an array of bindings, or an acceleration structure. The variable's type says which.
    Other,
}

/// An `override`: a value that is set when a pipeline is created.
#[derive(Clone, Debug, PartialEq, Eq, Hash)]
#[non_exhaustive]
pub struct Override {
    /// The name.
    pub name: String,
    /// Where its name stands.
    pub place: Place,
    /// The number of `@id`.
    pub id: Option<u32>,
    /// The type; None if it follows from the initializer, and that isn't read here.
    pub ty: Option<Scalar>,
    /// Whether it has a value if the pipeline sets none.
    pub has_default: bool,
}

/// An entry point: the function with which a pipeline stage starts.
#[derive(Clone, Debug, PartialEq, Eq, Hash)]
#[non_exhaustive]
pub struct EntryPoint {
    /// The name.
    pub name: String,
    /// Where its name stands.
    pub place: Place,
    /// The stage.
    pub stage: Stage,
    /// How many invocations a workgroup has in each dimension, None where an override gives it.
    pub workgroup_size: Option<[Option<u32>; 3]>,
}

/// A message about a place in the text. It displays as `10:3: ..`.
#[derive(Clone, Debug, PartialEq, Eq, Hash)]
#[non_exhaustive]
pub struct Message {
    /// Where the word stands that it is about.
    pub start: Place,
    /// Where that word ends.
    pub end: Place,
    /// The name of what is wrong, for programs.
    pub kind: String,
    /// What is wrong, and what would mend it.
    pub text: String,
}

impl fmt::Display for Message {
    fn fmt(&self, f: &mut fmt::Formatter<'_>) -> fmt::Result {
        write!(f, "{}:{}: {}", self.start.line, self.start.column, self.text)
    }
}

/// The layouts in the text of a module. Bytes that aren't UTF-8 are one of the errors in the result.
///
/// ```
/// let module = wgsl_types_proved::source::layouts(
///     "const LIGHTS = 2 + 2;
///      struct Light { color: vec3f, power: f32, @align(16) cone: vec2f }
///      struct Scene { lights: array<Light, LIGHTS>, weights: array<f32, 3> }
///      @group(0) @binding(1) var<uniform> scene: Scene;",
/// );
/// let [light, scene] = &module.structs[..] else { panic!() };
/// assert_eq!((light.size, light.members[2].offset, light.members[2].padding), (32, 16, 8));
/// assert_eq!((scene.members[0].ty.to_string().as_str(), scene.members[0].stride), ("array<Light, 4>", Some(32)));
/// assert_eq!(module.variables[0].min_binding_size, Some(144));
/// assert!(module.errors.is_empty());
/// assert!(module.findings[0].text.contains("`Scene.weights` has elements with the stride 4"));
/// ```
pub fn layouts(text: impl AsRef<[u8]>) -> Layouts {
    laid_out::layouts(text.as_ref())
}

/// The structs and aliases of a module as types, by name.
///
/// A type that can't be given is left out: one that has an error, or an array whose count is an override's value; one that
/// nests deeper than [`MAX_DEPTH`](crate::ty::MAX_DEPTH); and one with which all of them would contain more than 2^18 types, since
/// a [`Type`] owns the structs inside it.
///
/// ```
/// use wgsl_types_proved::source::types;
///
/// let types = types("struct Light { color: vec3f, @size(16) power: f32 } alias Lights = array<Light, 4>;");
/// assert_eq!(types["Lights"].to_string(), "array<Light, 4>");
/// assert_eq!(types["Light"].depth(), 3);
/// ```
pub fn types(text: &str) -> BTreeMap<String, Type> {
    laid_out::types(text)
}
