//! The names that WGSL predeclares, as an editor completes them. Those of types and of enumerants include naga's.
//!
//! ```
//! use wgsl_types_proved::predeclared::{attributes, builtin_values, enumerants, extensions, functions, is_function, types};
//!
//! assert!(is_function("bitcast") && functions().any(|name| name == "dpdx"));
//! assert!(types().any(|name| name == "vec3") && types().any(|name| name == "vec3f"));
//! assert!(enumerants().any(|name| name == "read_write"));
//! assert!(attributes().any(|name| name == "workgroup_size"));
//! assert!(builtin_values().any(|name| name == "position"));
//! let [enabled, required] = extensions();
//! assert!(enabled.contains(&"f16") && required.contains(&"buffer_view"));
//! ```

use crate::proved::wgsl_standard::names::{templates, ALIASES, OTHER_TYPES};
pub use crate::standard::{functions, is_function};
use crate::syntax::{AddressSpace, RuleSet, Scalar, TexelFormat};
use alloc::vec::Vec;
use lists::*;

/// What the build script makes.
pub(crate) mod lists {
    include!(concat!(env!("OUT_DIR"), "/lists.rs"));
}

/// The names of types, whether they need a template list or not, and the aliases, as `vec3f`.
pub fn types() -> impl Iterator<Item = &'static str> {
    let is_concrete =
        |name: &&str| !matches!(name.parse(), Ok(Scalar::AbstractInt | Scalar::AbstractFloat));
    let scalars = SCALARS.iter().copied().filter(is_concrete);
    let others = [ALIASES, OTHER_TYPES].into_iter().flatten().copied();
    scalars.chain(templates().iter().map(|row| row.0)).chain(others)
}

/// The predeclared enumerants, by WGSL's names where naga has another.
pub fn enumerants() -> impl Iterator<Item = &'static str> {
    let spaces = SPACES.iter().filter_map(|name| name.parse::<AddressSpace>().ok());
    let spaces = spaces.map(|space| space.name_by(RuleSet::Standard));
    let formats = FORMATS.iter().filter_map(|name| name.parse::<TexelFormat>().ok());
    let formats = formats.map(|format| format.name_by(RuleSet::Standard));
    let others = [ACCESS_MODES, FLAGS].into_iter().flatten();
    spaces.chain(formats).chain(others.copied())
}

/// The attributes.
pub fn attributes() -> impl Iterator<Item = &'static str> {
    ATTRIBUTES.iter().copied()
}

/// The extensions of `enable`, and those of `requires`, without a browser's and naga's own.
pub fn extensions() -> [Vec<&'static str>; 2] {
    [ENABLED, REQUIRED].map(|texts| texts.iter().flat_map(|text| text.split(' ')).collect())
}

/// The built-in values, the arguments of `@builtin`.
pub fn builtin_values() -> impl Iterator<Item = &'static str> {
    BUILTIN_VALUES.iter().copied()
}
