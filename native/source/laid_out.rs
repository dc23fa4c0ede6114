//! What the proved sources read of a module, as the values that users see.

use super::type_tree::{self, tree_of};
use super::{EntryPoint, Layouts, Member, Message, Override, Resource, Struct, Variable};
use crate::proved::wgsl_reader::module::{self, Misread};
use crate::proved::wgsl_report::lines::Lines;
use crate::proved::wgsl_report::message::{self, messages_of, Severity};
use crate::proved::wgsl_report::rules::findings_of;
use crate::proved::wgsl_report::shown::once;
use crate::proved::wgsl_report::told;
use crate::proved::wgsl_source::entry::{self, WorkgroupExtent};
use crate::proved::wgsl_source::fault::{Cause, Fault};
use crate::proved::wgsl_source::measured::TypeKind;
use crate::proved::wgsl_source::module::{read_module, Module};
use crate::proved::wgsl_source::text::{tokens, Text};
use crate::proved::wgsl_source::{structure, variable};
use crate::shim::{always, std::alloc::Global};
use crate::syntax::{AccessMode, AddressSpace};
use crate::ty::Type;
use alloc::collections::BTreeMap;
use alloc::string::{String, ToString};
use alloc::vec::Vec;

/// The layouts of the text of a module.
pub(super) fn layouts(bytes: &[u8]) -> Layouts {
    match core::str::from_utf8(bytes) {
        Ok(text) => {
            let tokens = always(tokens(Global, bytes));
            let text = Text { text, tokens: &tokens };
            let grammar = always(module::read_module(Global, &tokens));
            Reading::new(bytes, always(read_module(Global, text, &grammar)))
                .layouts(text, &grammar.misread)
        }
        Err(error) => {
            let fault = Fault { at: error.valid_up_to(), cause: Cause::NotUtf8 };
            Reading::new(bytes, always(Module::rattle_faulty(Global, fault)))
                .layouts(Text { text: "", tokens: &[] }, &[])
        }
    }
}

/// The types that the text of a module declares.
pub(super) fn types(text: &str) -> BTreeMap<String, Type> {
    let tokens = always(tokens(Global, text.as_bytes()));
    let grammar = always(module::read_module(Global, &tokens));
    type_tree::types(&always(read_module(Global, Text { text, tokens: &tokens }, &grammar)))
}

/// A module that is read, and the lines of its text.
struct Reading<'t> {
    lines: Lines<'t>,
    module: Module<'t>,
}

impl<'t> Reading<'t> {
    fn new(bytes: &'t [u8], module: Module<'t>) -> Reading<'t> {
        Reading { lines: always(Lines::rattle_of(Global, bytes)), module }
    }

    fn layouts(&self, text: Text<'t>, misread: &[Misread]) -> Layouts {
        let module = &self.module;
        let findings = always(findings_of(Global, module));
        let messages = always(messages_of(Global, text, misread, module, &findings));
        let (errors, findings): (Vec<_>, Vec<_>) =
            messages.iter().partition(|message| message.severity == Severity::Error);
        let structs = module.in_text.iter().filter_map(|index| module.structs.get(*index));
        Layouts {
            structs: structs.map(|of| self.structure(of)).collect(),
            left_out: always(once(Global, &module.left_out))
                .iter()
                .map(|name| name.to_string())
                .collect(),
            variables: module.variables.iter().map(|of| self.variable(of)).collect(),
            overrides: module.overrides.iter().map(|of| self.constant(of)).collect(),
            entry_points: module.entry_points.iter().map(|of| self.entry_point(of)).collect(),
            errors: errors.into_iter().map(|of| self.message(of)).collect(),
            findings: findings.into_iter().map(|of| self.message(of)).collect(),
        }
    }

    fn structure(&self, of: &structure::Struct<'_>) -> Struct {
        let members = of.members.iter().enumerate();
        Struct {
            name: of.name.to_string(),
            place: self.lines.place(of.place),
            size: of.size,
            align: of.align,
            is_runtime_sized: of.is_runtime_sized,
            members: members
                .map(|(index, member)| self.member(member, told::end_of(of, index)))
                .collect(),
        }
    }

    /// A member, and the padding up to the offset after it.
    fn member(&self, of: &structure::Member<'_>, end: u32) -> Member {
        Member {
            name: of.name.to_string(),
            place: self.lines.place(of.place),
            ty: tree_of(&self.module, of.ty),
            offset: of.offset,
            size: of.size,
            align: of.align,
            stride: told::stride_of(&self.module, of.ty),
            padding: told::padding(of, end).unwrap_or(0),
        }
    }

    fn variable(&self, of: &variable::Variable<'_>) -> Variable {
        Variable {
            name: of.name.to_string(),
            place: self.lines.place(of.place),
            ty: tree_of(&self.module, of.ty),
            group: of.group,
            binding: of.binding,
            space: of.space,
            access: of.access,
            resource: resource_of(of),
            size: of.ty.size,
            min_binding_size: told::min_binding_size(&self.module, of),
        }
    }

    fn constant(&self, of: &entry::Override<'_>) -> Override {
        Override {
            name: of.name.to_string(),
            place: self.lines.place(of.place),
            id: of.id,
            ty: of.ty,
            has_default: of.has_default,
        }
    }

    fn entry_point(&self, of: &entry::EntryPoint<'_>) -> EntryPoint {
        let extent = |of| match of {
            WorkgroupExtent::Known(count) => Some(count),
            WorkgroupExtent::Override => None,
        };
        EntryPoint {
            name: of.name.to_string(),
            place: self.lines.place(of.place),
            stage: of.stage,
            workgroup_size: of.workgroup_size.map(|extents| extents.map(extent)),
        }
    }

    fn message(&self, of: &message::Message) -> Message {
        Message {
            start: self.lines.place(of.at),
            end: self.lines.place(of.end),
            kind: of.kind.clone(),
            text: of.text.clone(),
        }
    }
}

fn resource_of(variable: &variable::Variable<'_>) -> Option<Resource> {
    match (variable.space, variable.access, variable.ty.kind) {
        (AddressSpace::Uniform, _, _) => Some(Resource::UniformBuffer),
        (AddressSpace::Storage, AccessMode::Read, _) => Some(Resource::ReadOnlyStorageBuffer),
        (AddressSpace::Storage, _, _) => Some(Resource::StorageBuffer),
        (AddressSpace::Handle, _, TypeKind::Sampler(of)) => Some(Resource::Sampler(of)),
        (AddressSpace::Handle, _, TypeKind::Texture(of)) => Some(Resource::Texture(of)),
        (AddressSpace::Handle, _, _) => Some(Resource::Other),
        _ => None,
    }
}
