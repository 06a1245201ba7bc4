// Made by scripts/erase of crates/acpi/src/platform/timer.rt, where it is proved.
//! The Power Management Timer (section 4.8.3.3).

use crate::base::address::GenericAddress;
use crate::base::{AcpiResult, Lender};
use crate::fixed::fadt::{Fadt, FadtView, FixedFeatureFlags};

/// The Power Management Timer (section 4.8.3.3), as the FADT describes it (section 5.2.9).
#[derive(Clone, Copy, Debug, PartialEq, Eq)]
pub struct PmTimer {
    /// PM_TMR_BLK or X_PM_TMR_BLK: the address of its register.
    pub base: GenericAddress,
    /// TMR_VAL_EXT (bit 8 of the FADT's flags): whether it counts in 32 bits, or else in 24.
    pub supports_32bit: bool,
}

impl PmTimer {
    /// The Power Management Timer that a FADT describes (sections 4.8.3.3 and 5.2.9), or `None` if it has
    /// none: the block of `Fadt::pm_timer_block`, and TMR_VAL_EXT, bit 8 of the flags.
    ///
    /// Fails with `InvalidGenericAddress` if that block has a reserved code.
    pub fn new(fadt: &Fadt) -> AcpiResult<Option<PmTimer>> {
        PmTimer::from_block(fadt.pm_timer_block(), fadt.flags)
    }

    /// What `new` returns, for a FADT that is read where it is.
    ///
    /// Fails as `new` does.
    pub fn of<H: Lender>(fadt: &FadtView<'_, H>) -> AcpiResult<Option<PmTimer>> {
        PmTimer::from_block(fadt.pm_timer_block(), fadt.flags())
    }

    /// The timer of a block and of flags, or `None` if there is no block.
    fn from_block(block: AcpiResult<Option<GenericAddress>>, flags: FixedFeatureFlags) -> AcpiResult<Option<PmTimer>> {
        let Some(base) = block? else {
            return Ok(None);
        };
        let supports_32bit = flags.pm_timer_is_32_bit();
        Ok(Some(PmTimer { base, supports_32bit }))
    }
}
