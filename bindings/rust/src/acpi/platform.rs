// Made by scripts/erase of crates/acpi/src/platform.rt, where it is proved.
//! A machine's purpose, interrupt controllers, processors and timer, by the FADT and the MADT.

pub mod interrupt;
mod mailbox;
mod script;
mod timer;
mod wakeup;

use crate::acpi::tables::AcpiTables;
use crate::alloc::TryClone;
use crate::alloc::{AllocError, Allocator, Global};
use crate::base::madt::Madt;
pub use crate::base::model::{ModelAndProcessors, Processor, ProcessorInfo, ProcessorState};
use crate::base::{AcpiResult, Lender};
use crate::fixed::fadt::PowerProfile;
use interrupt::InterruptModel;
pub use mailbox::{Mailbox, MailboxCall, MailboxWrite};
pub use script::ScriptedMailbox;
pub use timer::PmTimer;
pub use wakeup::wakeup_aps;

/// A machine's purpose, interrupt controllers, processors and power management timer, as its FADT (section
/// 5.2.9) and its MADT (section 5.2.12) say.
pub struct PlatformInfo<A: Allocator> {
    /// Preferred_PM_Profile of the FADT: the machine's purpose (section 5.2.9).
    pub power_profile: PowerProfile,
    /// The interrupt controllers that the MADT describes (section 5.2.12), or `Unknown`.
    pub interrupt_model: InterruptModel<A>,
    /// The processors that the MADT lists (section 5.2.12), or `None` if it lists none.
    pub processor_info: Option<ProcessorInfo<A>>,
    /// The power management timer that the FADT describes (section 4.8.3.3), or `None` if it has none.
    pub pm_timer: Option<PmTimer>,
}

/// Clones with the fields of the original, or `AllocError` if memory runs out, also for a clone of the
/// allocator. If there is no interrupt model and no processor, nothing is asked for.
impl<A: Allocator + TryClone> TryClone for PlatformInfo<A> {
    fn try_clone(&self) -> Result<PlatformInfo<A>, AllocError> {
        Ok(PlatformInfo {
            power_profile: self.power_profile,
            interrupt_model: self.interrupt_model.try_clone()?,
            processor_info: match &self.processor_info {
                Some(processors) => Some(processors.try_clone()?),
                None => None,
            },
            pm_timer: self.pm_timer,
        })
    }
}

impl PlatformInfo<Global> {
    /// The platform that the first valid FADT (section 5.2.9) and the first valid MADT (section 5.2.12)
    /// describe, in memory of the global allocator. If no MADT is valid, the interrupt model is `Unknown`,
    /// and there are no processors.
    ///
    /// Fails, in this order, with `TableMissing` if no valid FADT is listed, with what
    /// `parse_interrupt_model_in` refuses of the MADT, `AllocError` included, and with what
    /// `PmTimer::new` refuses.
    #[cfg(feature = "alloc")]
    pub fn new<H: Lender>(tables: &AcpiTables<'_, H>) -> AcpiResult<Self> {
        PlatformInfo::new_in(tables, Global)
    }
}

impl<A: Allocator + TryClone> PlatformInfo<A> {
    /// The platform that the first valid FADT (section 5.2.9) and the first valid MADT (section 5.2.12)
    /// describe, in memory of an allocator. If no MADT is valid, the interrupt model is `Unknown`, and
    /// there are no processors. A MADT with a malformed remainder is an error: a model of half the
    /// entries would be taken for the whole.
    ///
    /// Fails, in this order, with `TableMissing` if no valid FADT is listed, with what
    /// `parse_interrupt_model_in` refuses of the MADT, and with what `PmTimer::new` refuses. Memory is
    /// asked for only if the MADT describes APICs; `AllocError` then comes before any error of the
    /// timer.
    pub fn new_in<H: Lender>(tables: &AcpiTables<'_, H>, allocator: A) -> AcpiResult<Self> {
        let fadt = tables.find_fadt()?;
        let (interrupt_model, processor_info) = found_model(tables, allocator)?;
        let pm_timer = PmTimer::of(&fadt)?;
        Ok(PlatformInfo { power_profile: fadt.power_profile(), interrupt_model, processor_info, pm_timer })
    }
}

/// The interrupt model and the processors of the first valid MADT, or `Unknown` without processors if none
/// is valid.
fn found_model<H: Lender, A: Allocator + TryClone>(
    tables: &AcpiTables<'_, H>,
    allocator: A,
) -> AcpiResult<ModelAndProcessors<A>> {
    match tables.find_table::<Madt>() {
        Ok(madt) => madt.parse_interrupt_model_in(allocator),
        Err(_) => Ok((InterruptModel::Unknown, None)),
    }
}
