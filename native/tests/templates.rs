//! Templates one by one: what each makes of its parameters, and each of its refusals, as `tests/tables/templates.tsv` says.

use crate::{asked::parameters, tables::rows};
use wgsl_types_proved::tplt::{ArrayTemplate, AtomicTemplate, BindingArrayTemplate};
use wgsl_types_proved::tplt::{BitcastTemplate, MatTemplate, PtrTemplate};
use wgsl_types_proved::tplt::{TextureTemplate, TpltParam, VecTemplate};
use wgsl_types_proved::{Error, Type};

/// What the template of an array makes, the type of its elements, and their number.
macro_rules! array_parts {
    ($array:expr) => {
        $array.map(|of| format!("{} {} {:?}", of.ty(), of.inner_ty(), of.n()))
    };
}

/// What the template of this name makes of its parameters, and the type inside if it tells that.
fn made(name: &str, tplt: &[TpltParam]) -> Result<String, Error> {
    let both = |ty: Type, inner: &Type| format!("{ty} {inner}");
    match name {
        "array" => array_parts!(ArrayTemplate::parse(tplt)),
        "binding_array" => array_parts!(BindingArrayTemplate::parse(tplt)),
        "pointer" => PtrTemplate::parse(tplt).map(|of| of.ty().to_string()),
        "pointer parts" => {
            PtrTemplate::parse(tplt).map(|of| format!("{} {} {}", of.space, of.ty, of.access))
        }
        "vector" => VecTemplate::parse(tplt).map(|of| both(of.ty(255), of.inner_ty())),
        "matrix" => MatTemplate::parse(tplt).map(|of| both(of.ty(0, 255), of.inner_ty())),
        "atomic" => AtomicTemplate::parse(tplt).map(|of| both(of.ty(), &of.inner_ty())),
        "bitcast" => BitcastTemplate::parse(tplt).map(|of| both(of.ty().clone(), &of.inner_ty())),
        _ => {
            let texture = name.strip_prefix("texture ").expect(name);
            TextureTemplate::parse(texture, tplt).map(|of| Type::Texture(of.ty()).to_string())
        }
    }
}

#[test]
fn templates_make_types_or_refuse() {
    let rows = rows::<3>("tables/templates.tsv");
    assert_eq!(rows.len(), 327);
    for [name, listed, wanted] in rows {
        let found = made(&name, &parameters(&listed));
        let answer = found.unwrap_or_else(|refused| refused.to_string());
        assert_eq!(answer, wanted, "{name} of `{listed}`");
    }
}

#[test]
fn array_templates_are_made_without_parameters() {
    let array = Some(ArrayTemplate::new(Type::U64, Some(5)));
    assert_eq!(array_parts!(array), Some("array<u64, 5> u64 Some(5)".to_string()));
}
