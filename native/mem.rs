//! Sizes, alignments and offsets in memory (WGSL, "Alignment and Size").
//!
//! The size and the alignment of a type, and the least size:
//!
//! ```
//! use wgsl_types_proved::Type;
//!
//! let elements = Type::array(Some(4), Type::vector(3, Type::F32));
//! assert_eq!((elements.size_of(), elements.align_of()), (Some(64), Some(16)));
//! ```
//!
//! ```
//! use wgsl_types_proved::Type;
//!
//! let elements = Type::array(None, Type::vector(3, Type::F32));
//! assert_eq!((elements.size_of(), elements.min_size_of()), (None, Some(16)));
//! ```
//!
//! ```
//! use wgsl_types_proved::Type;
//!
//! assert_eq!(Type::vector(3, Type::F16).align_of(), Some(8));
//! assert_eq!(Type::AbstractInt.align_of(), None);
//! ```
//!
//! Those of a struct:
//!
//! ```
//! use wgsl_types_proved::{ty::StructType, Type};
//!
//! let light = StructType::new("Light", [("power", Type::F32), ("color", Type::vector(3, Type::F32))]);
//! assert_eq!(light.size_of(), Some(32));
//! ```
//!
//! ```
//! use wgsl_types_proved::{ty::StructType, Type};
//!
//! let light = StructType::new("Light", [("power", Type::F32), ("color", Type::vector(3, Type::F32))]);
//! assert_eq!(light.align_of(), Some(16));
//! ```

pub use crate::proved::wgsl_core::layout::{PlacedMember, StructLayout};
use crate::shim::{always, std::alloc::Global};
use crate::syntax::RuleSet;
use crate::ty::StructType;
use alloc::vec::Vec;

impl StructType {
    /// The layout of the struct: each member at the smallest offset of any placement, and the smallest size.
    ///
    /// None exactly if the struct has no size: if it has no members; if a member's size or alignment comes neither from an
    /// attribute nor from its type, or its alignment is 0; and if the size is above 4294967295.
    ///
    /// ```
    /// use wgsl_types_proved::{ty::StructType, Type};
    ///
    /// let light = StructType::new("Light", [("power", Type::F32), ("color", Type::vector(3, Type::F32))]);
    /// let layout = light.layout().unwrap();
    /// assert_eq!((layout.members[1].offset, layout.members[1].size, layout.size), (16, 12, 32));
    /// ```
    pub fn layout(&self) -> Option<StructLayout> {
        self.layout_by(RuleSet::Ported)
    }

    /// [`layout`](StructType::layout) by either set of rules. They differ for vectors of three and matrices of three rows.
    ///
    /// ```
    /// use wgsl_types_proved::{syntax::RuleSet, ty::StructType, Type};
    ///
    /// let flags = StructType::new("Flags", [("set", Type::vector(3, Type::Bool))]);
    /// assert_eq!(flags.layout_by(RuleSet::Standard).map(|layout| layout.size), Some(16));
    /// assert_eq!(flags.layout_by(RuleSet::Ported), None);
    /// ```
    pub fn layout_by(&self, rules: RuleSet) -> Option<StructLayout> {
        always(self.rattle_layout_by(Global, rules))
    }

    /// The smallest layout of the struct if its last member may be a runtime-sized array, which counts as one element (WGSL,
    /// "Minimum Binding Size"). As [`layout`](StructType::layout) of any other struct, and None for the same causes.
    ///
    /// ```
    /// use wgsl_types_proved::{ty::StructType, Type};
    ///
    /// let items = Type::array(None, Type::vector(3, Type::F32));
    /// let list = StructType::new("List", [("count", Type::U32), ("items", items)]);
    /// let layout = list.min_layout().unwrap();
    /// assert_eq!((list.layout(), layout.members[1].offset, layout.size), (None, 16, 32));
    /// ```
    #[cfg(feature = "standard")]
    pub fn min_layout(&self) -> Option<StructLayout> {
        self.min_layout_by(RuleSet::Ported)
    }

    /// [`min_layout`](StructType::min_layout) by either set of rules.
    #[cfg(feature = "standard")]
    pub fn min_layout_by(&self, rules: RuleSet) -> Option<StructLayout> {
        always(crate::proved::wgsl_standard::forms::layout::min_layout_by(Global, rules, self))
    }

    /// The offset of each member in bytes: no placement has a smaller one. None if [`layout`](StructType::layout) is None.
    ///
    /// ```
    /// use wgsl_types_proved::{ty::StructType, Type};
    ///
    /// let light = StructType::new("Light", [("power", Type::F32), ("color", Type::vector(3, Type::F32))]);
    /// assert_eq!(light.offsets(), Some(vec![0, 16]));
    /// ```
    pub fn offsets(&self) -> Option<Vec<u32>> {
        self.offsets_by(RuleSet::Ported)
    }

    /// [`offsets`](StructType::offsets) by either set of rules.
    pub fn offsets_by(&self, rules: RuleSet) -> Option<Vec<u32>> {
        always(self.rattle_offsets_by(Global, rules))
    }
}
