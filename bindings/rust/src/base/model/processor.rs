// Made by scripts/erase of crates/acpi_base/src/model/processor.rt, where it is proved.
//! The processors that a MADT lists (sections 5.2.12.2 and 5.2.12.12).

use crate::alloc::TryClone;
use crate::alloc::{AllocError, Allocator};
use crate::base::managed_slice::ManagedSlice;

/// The state of a processor when the firmware starts the operating system, by Enabled, bit 0 of its entry's
/// flags (sections 5.2.12.2 and 5.2.12.12), and by whether it is the boot processor.
#[derive(Clone, Copy, Debug, PartialEq, Eq)]
pub enum ProcessorState {
    /// Enabled isn't set: the processor can't be used, and is not to be started.
    Disabled,
    /// Enabled is set: the application processor waits for the interrupt by which it is started, the SIPI.
    WaitingForSipi,
    /// Enabled is set: the boot processor runs.
    Running,
}

/// Processor Local APIC or Processor Local x2APIC: a processor and its local APIC (sections 5.2.12.2 and
/// 5.2.12.12).
#[derive(Clone, Copy, Debug, PartialEq, Eq)]
pub struct Processor {
    /// ACPI Processor UID: the `_UID` of the processor's object in the namespace.
    pub processor_uid: u32,
    /// APIC ID or X2APIC ID: the id of the processor's local APIC.
    pub local_apic_id: u32,
    /// Whether the processor can be used, and whether it runs already.
    pub state: ProcessorState,
    /// Whether it is an application processor, that is, another one than the boot processor.
    pub is_ap: bool,
}

/// The processors of a machine, as its MADT lists them (sections 5.2.12.2 and 5.2.12.12).
pub struct ProcessorInfo<A: Allocator> {
    /// The boot processor: that of the first entry of a processor, even if Enabled isn't set there.
    pub boot_processor: Processor,
    /// The application processors: one for each other entry, in their order.
    pub application_processors: ManagedSlice<Processor, A>,
}

/// Clones with the fields of the original, or `AllocError` if memory runs out, also for a clone of the
/// allocator.
impl<A: Allocator + TryClone> TryClone for ProcessorInfo<A> {
    fn try_clone(&self) -> Result<ProcessorInfo<A>, AllocError> {
        Ok(ProcessorInfo {
            boot_processor: self.boot_processor,
            application_processors: self.application_processors.try_clone()?,
        })
    }
}
