// Made by scripts/erase of crates/acpi_sleep/src/sleep.rt, where it is proved.
//! The sleep types of a sleep state (section 7.4.2).

use crate::sleep::error::AmlError;
use crate::sleep::step::{Place, Step, step_at};

/// What to write to SLP_TYP of the PM1a and the PM1b control register to enter a sleep state (section 4.8.3.2.1), as
/// the AML has it: a value above 7 can't be written.
#[derive(Clone, Copy, Debug, PartialEq, Eq)]
pub struct SleepTypes {
    /// SLP_TYPa: that of PM1a_CNT.
    pub a: u64,
    /// SLP_TYPb: that of PM1b_CNT.
    pub b: u64,
}

/// What a block of AML contains of a sleep state.
#[derive(Clone, Copy, Debug, PartialEq, Eq)]
#[non_exhaustive]
pub enum SleepAnswer {
    /// It can be entered with these sleep types.
    Types(SleepTypes),
    /// The block doesn't define its name at the root.
    Absent,
    /// The block may define the name, or does, but not where AML that isn't run has it. The first object that may
    /// begins at this offset: an `If`, `Else` or `While`; a `Method` or `Alias` of the name; a block that is passed, or
    /// another term with the four letters of the name in its bytes, but no `External`, which defines nothing; a `Name`
    /// of it whose value isn't a package that begins with the constants; or what isn't passed. The last two hide what
    /// follows them.
    NotSeen(usize),
}

/// The sleep types of a sleep state, 0 to 5, in one block of AML: the bytes of a DSDT or an SSDT after its header. They
/// are the types of the first `_S0_` to `_S5_` that a `Name` at the root, or in a `Scope (\)` there, sets to a package
/// whose first two elements, or whose only one, are integer constants: these two values, or of an only one its low byte
/// and what is above that. Elements after the second may be anything.
///
/// Methods, devices, other scopes, and what is under an `If` are passed by their length. What a method's body
/// defines ends with the call of it, so that bodies of methods at the root don't matter.
///
/// Fails with an `AmlError` where the walk meets bytes that are no AML.
///
/// # Panics
///
/// Panics if `state` is above 207, where overflow is checked.
pub fn sleep_types(aml: &[u8], state: u8) -> Result<SleepAnswer, AmlError> {
    let mut place = Place::after(None, 0);
    let mut unseen: Option<usize> = None;
    while place.at < aml.len() {
        match step_at(aml, state, place)? {
            Step::Found(types) => return Ok(SleepAnswer::Types(types)),
            Step::On(next) => place = next,
            Step::Unseen(next) => {
                unseen = unseen.or(Some(place.at));
                place = next;
            }
        }
    }
    match unseen {
        None => Ok(SleepAnswer::Absent),
        Some(at) => Ok(SleepAnswer::NotSeen(at)),
    }
}
