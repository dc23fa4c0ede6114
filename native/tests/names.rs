//! Names read and printed, and what texel formats and textures answer.

use crate::tables::rows;
use std::fmt::{Debug, Display};
use std::str::FromStr;
use wgsl_types_proved::builtin::{find_call, is_ctor, type_ctor};
use wgsl_types_proved::syntax::{
    AccessMode, AddressSpace, AssignmentOperator, BuiltinValue, ConservativeDepth,
    DiagnosticSeverity, Enumerant, InterpolationSampling, InterpolationType, SampledType,
    TexelFormat,
};
use wgsl_types_proved::ty::{TextureDimensions, TextureType};
use wgsl_types_proved::Error;

/// The value that a text names, as Rust names it, with its own text.
fn value<T: FromStr<Err = ()> + Display + Debug>(text: &str) -> [String; 2] {
    let value: T = text.parse().expect(text);
    [format!("{value:?}"), value.to_string()]
}

/// Which of the types is named, and the value there that a text names.
macro_rules! value_of {
    ($name:ident, $text:ident: $($ty:ident)*) => {
        match &*$name {
            $(stringify!($ty) => value::<$ty>(&$text),)*
            _ => panic!("{}", $name),
        }
    };
}

#[test]
fn each_name_is_read_and_printed() {
    for [ty, name, text] in rows("tables/names.tsv") {
        let found = value_of! {
            ty, text:
            TexelFormat BuiltinValue DiagnosticSeverity InterpolationType InterpolationSampling
            ConservativeDepth AssignmentOperator AddressSpace Enumerant
        };
        assert_eq!(found, [name, text], "{ty}");
    }
}

#[test]
fn handle_is_printed_and_not_read() {
    assert_eq!("handle".parse::<AddressSpace>(), Err(()));
    assert_eq!("handle".parse::<Enumerant>(), Err(()));
    assert_eq!("Greater_equal".parse::<ConservativeDepth>(), Err(()));
    assert_eq!(AddressSpace::Handle.to_string(), "handle");
}

#[test]
fn texel_formats_tell_their_channels() {
    let mut formats = rows::<3>("tables/names.tsv");
    formats.retain(|[ty, ..]| ty == "TexelFormat");
    assert_eq!(formats.len(), 41);
    for [_, _, name] in &formats {
        let format: TexelFormat = name.parse().unwrap();
        let of_type = match name {
            _ if name.ends_with("uint") => SampledType::U32,
            _ if name.ends_with("sint") => SampledType::I32,
            _ => SampledType::F32,
        };
        let count = match name.as_str() {
            "rg11b10float" => 3,
            _ if name.starts_with("rgb") || name.starts_with("bgra") => 4,
            _ if name.starts_with("rg") => 2,
            _ => 1,
        };
        assert_eq!((format.channel_type(), format.num_channels()), (of_type, count), "of `{name}`");
    }
}

#[test]
fn textures_answer_their_queries() {
    use SampledType::{F32, I32, U32};
    assert_eq!(TextureType::Multisampled2D(F32).sampled_type(), None);
    assert_eq!(TextureType::Multisampled2DArray(F32).sampled_type(), Some(F32));
    assert_eq!(TextureType::Sampled2D(I32).sampled_type(), Some(I32));
    let stored = TextureType::Storage3D(TexelFormat::R32Sint, AccessMode::Read);
    assert_eq!((stored.dimensions(), stored.is_arrayed()), (TextureDimensions::D3, false));
    assert_eq!(stored.channel_type(), I32);
    let lines = TextureType::Sampled1DArray(U32);
    assert_eq!((lines.dimensions(), lines.is_arrayed()), (TextureDimensions::D1, true));
    assert!(lines.is_sampled());
}

#[test]
fn functions_are_found_by_one_comparison() {
    for (names, is_found) in
        [("abs workgroupUniformLoad pack4xU8Clamp", true), (" ab absA zz", false)]
    {
        for name in names.split(' ') {
            let (index, compared) = find_call(name);
            assert_eq!((index.is_some(), compared), (is_found, 1), "{name}");
        }
    }
}

const CONSTRUCTORS: &str = "array bool i32 u32 f32 f16 i64 u64 f64 vec2 vec3 vec4 mat2x2 mat2x3 \
    mat2x4 mat3x2 mat3x3 mat3x4 mat4x2 mat4x3 mat4x4";

/// Without template and arguments, `Signature` refuses exactly what is no constructor.
#[test]
fn constructors_have_these_names_alone() {
    let others =
        "AbstractInt AbstractFloat vec mat atomic ptr ref struct sampler binding_array abs Array";
    let mut names: Vec<String> = others.split(' ').map(str::to_string).collect();
    for digit in '0'..='9' {
        names.push(format!("vec{digit}"));
        names.extend(('0'..='9').map(|other| format!("mat{digit}x{other}")));
    }
    for name in CONSTRUCTORS.split(' ') {
        // Near misses: a byte less, a byte more, another case.
        names.extend([name, &name[1..], &name[..name.len() - 1]].map(str::to_string));
        names.extend(["x", "2", " ", "f"].map(|more| format!("{name}{more}")));
        names.push(name.to_uppercase());
    }
    for name in names {
        let is_listed = CONSTRUCTORS.split(' ').any(|listed| listed == name);
        let is_called = !matches!(type_ctor(&name, None, &[]), Err(Error::Signature(_)));
        assert_eq!((is_ctor(&name), is_called), (is_listed, is_listed), "{name}");
    }
}
