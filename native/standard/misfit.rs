//! Lists of values that are refused, and the value to blame.

use super::Refusal;
use crate::proved::wgsl_standard::forms as proved;
use crate::proved::wgsl_standard::forms::{
    expression::is_const_expression, lists::Taker, load::load_type,
};
use crate::proved::wgsl_standard::operand::Operand as Asked;
use crate::ty::Type;
use core::fmt;

/// Why a list of values is refused. It displays as the refusal.
#[derive(Clone, Debug, PartialEq, Eq, Hash)]
#[non_exhaustive]
pub struct Misfit {
    /// Why the list is refused.
    pub refusal: Refusal,
    /// The index of the value that the refusal is about, from 0: the first that has it, or without a common type the first that
    /// has none with those before it. Of `switch` that of the case. None if the number of values is refused, the type of what
    /// is constructed, or the selector.
    pub index: Option<usize>,
}

impl Misfit {
    /// What refuses the whole list, at the first value that is refused alike by itself.
    pub(super) fn at(
        refusal: Refusal,
        count: usize,
        by_itself: impl Fn(usize) -> Option<Refusal>,
    ) -> Misfit {
        let index = (0..count).find(|&index| by_itself(index).as_ref() == Some(&refusal));
        Misfit { refusal, index }
    }

    /// What refuses parameters of these types, at the value that one doesn't take.
    pub(super) fn of_types<'a>(
        refusal: Refusal,
        values: &[Asked<'a>],
        type_at: impl Fn(usize) -> Option<&'a Type>,
    ) -> Misfit {
        Misfit::at(refusal, values.len(), |index| {
            let ty = core::slice::from_ref(type_at(index)?);
            let nameless = Taker::Function(""); // only a wrong number of values is told with the name
            proved::lists::fit(nameless, &values[index..=index], ty).err().map(Refusal::from)
        })
    }

    /// What refuses `array(x, y)`.
    pub(super) fn of_elements(refusal: Refusal, values: &[Asked<'_>]) -> Misfit {
        let unloaded = values.iter().position(|value| load_type(value.ty).is_err());
        let is_made = |count| proved::array::construct_array(&values[..count]).is_ok();
        let index = unloaded.or_else(|| shortest(values.len(), is_made)?.checked_sub(1));
        Misfit { refusal, index }
    }

    /// What refuses `switch`.
    pub(super) fn of_cases(refusal: Refusal, selector: &Asked<'_>, cases: &[Asked<'_>]) -> Misfit {
        let is_taken = |count| proved::switch::switch_type(selector, &cases[..count]).is_ok();
        let index = match &refusal {
            _ if !is_taken(0) => None,
            Refusal::NotConst => cases.iter().position(|case| !is_const_expression(case)),
            Refusal::Conversion(_, _) => {
                shortest(cases.len(), is_taken).and_then(|n| n.checked_sub(1))
            }
            _ => cases.iter().position(|case| proved::switch::switch_type(case, &[]).is_err()),
        };
        Misfit { refusal, index }
    }
}

/// The number of values, up to `count`, of the shortest beginning of a list that is refused, if longer ones are too.
fn shortest(count: usize, is_taken: impl Fn(usize) -> bool) -> Option<usize> {
    let (mut taken, mut refused) = (0, count);
    while refused.checked_sub(taken)? > 1 {
        let middle = taken + (refused - taken) / 2;
        *(if is_taken(middle) { &mut taken } else { &mut refused }) = middle;
    }
    Some(refused)
}

impl From<Misfit> for Refusal {
    fn from(misfit: Misfit) -> Refusal {
        misfit.refusal
    }
}

impl fmt::Display for Misfit {
    fn fmt(&self, f: &mut fmt::Formatter<'_>) -> fmt::Result {
        self.refusal.fmt(f)
    }
}

impl core::error::Error for Misfit {}
