//! Types of a module as data, and the types that it declares.

use super::{ElementCount, TypeTree};
use crate::proved::wgsl_core::ty::show::ShownType;
use crate::proved::wgsl_report::{layers::inside, told::stride_of};
use crate::proved::wgsl_source::measured::{Count, MeasuredType, TypeKind};
use crate::proved::wgsl_source::module::Module;
use crate::proved::wgsl_source::structure;
use crate::proved::wgsl_syntax::rules::RuleSet;
use crate::ty::{StructMemberType, StructType, Type, MAX_DEPTH};
use alloc::boxed::Box;
use alloc::collections::BTreeMap;
use alloc::string::{String, ToString};
use alloc::vec::Vec;
use core::fmt;

/// A type as a tree.
pub(super) fn tree_of(module: &Module<'_>, ty: MeasuredType) -> TypeTree {
    let element = || {
        Box::new(inside(module, ty).map_or(TypeTree::Leaf(Type::Bool), |ty| tree_of(module, ty)))
    };
    match ty.kind {
        TypeKind::Array(_, count) => TypeTree::Array {
            element: element(),
            count: count_of(count),
            stride: stride_of(module, ty),
        },
        TypeKind::BindingArray(_, count) => {
            TypeTree::BindingArray { element: element(), count: count_of(count) }
        }
        TypeKind::Pointer(space, _, access) => {
            TypeTree::Pointer { space, target: element(), access }
        }
        TypeKind::Struct(index) => {
            TypeTree::Struct(module.structs.get(index).map_or("", |of| of.name).to_string())
        }
        TypeKind::Scalar(of) => TypeTree::Leaf(of.into()),
        TypeKind::Vector(count, of) => TypeTree::Leaf(Type::vector(count, of.into())),
        TypeKind::Matrix(columns, rows, of) => {
            TypeTree::Leaf(Type::matrix(columns, rows, of.into()))
        }
        TypeKind::Atomic(of) => TypeTree::Leaf(Type::Atomic(Box::new(of.into()))),
        TypeKind::Sampler(of) => TypeTree::Leaf(Type::Sampler(of)),
        TypeKind::Texture(of) => TypeTree::Leaf(Type::Texture(of)),
        TypeKind::RayQuery(flag) => TypeTree::Leaf(Type::RayQuery(flag)),
        TypeKind::AccelerationStructure(flag) => TypeTree::Leaf(Type::AccelerationStructure(flag)),
    }
}

fn count_of(count: Count) -> ElementCount {
    match count {
        Count::Known(count) => ElementCount::Known(count),
        Count::Runtime => ElementCount::Runtime,
        Count::Override => ElementCount::Override,
    }
}

impl fmt::Display for TypeTree {
    fn fmt(&self, f: &mut fmt::Formatter<'_>) -> fmt::Result {
        match self {
            TypeTree::Leaf(ty) => ShownType { ty, rules: RuleSet::Standard }.fmt(f),
            TypeTree::Struct(name) => f.write_str(name),
            TypeTree::Array { element, count, .. } => write!(f, "array<{element}{count}>"),
            TypeTree::BindingArray { element, count } => {
                write!(f, "binding_array<{element}{count}>")
            }
            TypeTree::Pointer { space, target, access } => {
                write!(f, "ptr<{}, {target}, {access}>", space.name_by(RuleSet::Standard))
            }
        }
    }
}

/// How the number stands behind the element type.
impl fmt::Display for ElementCount {
    fn fmt(&self, f: &mut fmt::Formatter<'_>) -> fmt::Result {
        match self {
            ElementCount::Known(count) => write!(f, ", {count}"),
            ElementCount::Runtime => Ok(()),
            ElementCount::Override => f.write_str(", override"),
        }
    }
}

/// How many types all that [`types`] returns may contain.
const MOST: usize = 1 << 18;

/// How many types a type contains, with itself, and how deep they nest.
#[derive(Clone, Copy)]
struct Extent {
    count: usize,
    depth: usize,
}

/// The types that a module declares, by name.
pub(super) fn types(module: &Module<'_>) -> BTreeMap<String, Type> {
    let mut extents: Vec<Option<Extent>> = Vec::new();
    for of in &module.structs {
        let mut members = of.members.iter().map(|member| extent(module, &extents, member.ty));
        let all = members.try_fold(Extent::LEAF, |all, member| Some(all.around(member?)));
        extents.push(all);
    }
    let structs = module
        .in_text
        .iter()
        .filter_map(|index| Some((module.structs.get(*index)?.name, TypeKind::Struct(*index))));
    let aliases = module.aliases.iter().map(|alias| (alias.name, alias.ty));
    let structs = structs.map(|(name, kind)| (name, MeasuredType::leaf(kind, None, None)));
    let (mut left, mut found) = (MOST, BTreeMap::new());
    for (name, ty) in structs.chain(aliases) {
        let extent = extent(module, &extents, ty).filter(|extent| extent.depth <= MAX_DEPTH);
        let rest = extent.and_then(|extent| left.checked_sub(extent.count));
        if let Some(ty) = rest.and_then(|_| type_of(module, ty)) {
            left = rest.unwrap_or(0);
            found.insert(name.to_string(), ty);
        }
    }
    found
}

/// None if a count in it is an override's value.
fn extent(module: &Module<'_>, extents: &[Option<Extent>], ty: MeasuredType) -> Option<Extent> {
    match ty.kind {
        TypeKind::Struct(index) => *extents.get(index)?,
        TypeKind::Array(_, Count::Override) | TypeKind::BindingArray(_, Count::Override) => None,
        TypeKind::Array(..) | TypeKind::BindingArray(..) | TypeKind::Pointer(..) => {
            Some(Extent::LEAF.around(extent(module, extents, inside(module, ty)?)?))
        }
        TypeKind::Vector(..) | TypeKind::Matrix(..) | TypeKind::Atomic(_) => {
            Some(Extent::LEAF.around(Extent::LEAF))
        }
        _ => Some(Extent::LEAF),
    }
}

impl Extent {
    const LEAF: Extent = Extent { count: 1, depth: 1 };

    /// That of a type with one more type inside.
    fn around(self, inner: Extent) -> Extent {
        Extent {
            count: self.count.saturating_add(inner.count),
            depth: self.depth.max(inner.depth.saturating_add(1)),
        }
    }
}

/// None if a count in it is an override's value.
fn type_of(module: &Module<'_>, ty: MeasuredType) -> Option<Type> {
    let element = || type_of(module, inside(module, ty)?).map(Box::new);
    let known = |count: Count| count.known().map(|count| count as usize);
    Some(match ty.kind {
        TypeKind::Array(_, count) => Type::Array(element()?, known(count)),
        TypeKind::BindingArray(_, count) => Type::BindingArray(element()?, known(count)),
        TypeKind::Pointer(space, _, access) => Type::Ptr(space, element()?, access),
        TypeKind::Struct(index) => struct_of(module, module.structs.get(index)?)?.into(),
        _ => match tree_of(module, ty) {
            TypeTree::Leaf(ty) => ty,
            _ => return None,
        },
    })
}

fn struct_of(module: &Module<'_>, of: &structure::Struct<'_>) -> Option<StructType> {
    let members = of.members.iter().map(|member| {
        Some(StructMemberType {
            name: member.name.to_string(),
            ty: type_of(module, member.ty)?,
            size: member.size_attribute,
            align: member.align_attribute,
        })
    });
    Some(StructType { name: of.name.to_string(), members: members.collect::<Option<Vec<_>>>()? })
}
