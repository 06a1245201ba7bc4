// Made by scripts/erase of crates/acpi/src/walk.rt, where it is proved.
//! What the pointers of a root table lead to, without what isn't valid.

use crate::acpi::pointers::Pointers;
use crate::base::Lender;

/// What a walk along pointers looks for where each leads, as the header of a table.
pub(crate) trait Asked {}

/// The pointer that comes next, which is passed: what it leads to may be asked for.
#[inline(always)]
pub(crate) fn next_asked<H: Lender, M: Asked>(handler: &H, pointers: &mut Pointers<'_>, accept: u32) -> Option<u64> {
    pointers.next()
}

/// What a walk finds wherever a pointer leads to something that is accepted.
pub(crate) trait Found: Asked + Sized {
    /// What is at an address, if the bits of `accept` accept it.
    fn at<H: Lender>(handler: &H, address: u64, accept: u32) -> Option<Self>;
}

/// What the first pointer leads to that leads to something that is accepted. It is passed, with those before it.
#[inline(always)]
pub(crate) fn next_found<H: Lender, M: Found>(handler: &H, pointers: &mut Pointers<'_>, accept: u32) -> Option<M> {
    while let Some(address) = next_asked::<H, M>(handler, pointers, accept) {
        if let Some(item) = M::at(handler, address, accept) {
            return Some(item);
        }
    }
    None
}
