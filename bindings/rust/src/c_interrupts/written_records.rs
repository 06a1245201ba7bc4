// Made by scripts/erase of crates/acpi_c_interrupts/src/written_records.rt, where it is proved.
//! Made by scripts/records: what C sees of the tables of interrupts and timers that are to be written.
//! `include/zacpi.h` has what each field is.

use crate::c_interrupts::apics::records::{InterruptSourceOverride, IoApic, NmiLine, NmiSource, Processor};
use crate::c_interrupts::arm::records::{
    ArmTimers, GicCpuInterface, GicDistributor, GicMsiFrame, GicTranslationService, GtFrame, Watchdog,
};
use crate::c_lib::records::Range;

/// `struct zacpi_madt_contents`.
#[repr(C)]
#[derive(Clone, Copy, Debug, Default, PartialEq, Eq)]
pub struct MadtContents<'a> {
    /// Processors: the first is the boot processor; is_boot isn't looked at; enabled unless the state is
    /// ZACPI_PROCESSOR_DISABLED.
    pub processors: &'a [Processor],
    /// The I/O APICs.
    pub io_apics: &'a [IoApic],
    /// Overrides: bus has to be 0, ISA.
    pub overrides: &'a [InterruptSourceOverride],
    /// The interrupts that are non-maskable.
    pub nmi_sources: &'a [NmiSource],
    /// NMI lines: processor_uid isn't looked at if of_all isn't 0.
    pub nmi_lines: &'a [NmiLine],
    /// The physical address of the local APICs.
    pub local_apic_address: u64,
    /// MailBoxAddress (section 5.2.12.19), if has_wakeup_mailbox.
    pub wakeup_mailbox: u64,
    /// PCAT_COMPAT.
    pub also_has_8259: u8,
    /// Whether there is a mailbox.
    pub has_wakeup_mailbox: u8,
}

/// `struct zacpi_gic_contents`.
#[repr(C)]
#[derive(Clone, Copy, Debug, Default, PartialEq, Eq)]
pub struct GicContents<'a> {
    /// The distributor.
    pub distributor: GicDistributor,
    /// CPU interfaces: the first is the boot processor.
    pub cpu_interfaces: &'a [GicCpuInterface],
    /// The ranges of redistributors.
    pub redistributors: &'a [Range],
    /// The interrupt translation services.
    pub translation_services: &'a [GicTranslationService],
    /// MSI frames: spi_base and spi_count aren't looked at if has_spis is 0.
    pub msi_frames: &'a [GicMsiFrame],
}

/// `struct zacpi_platform_timer`.
#[repr(C)]
#[derive(Clone, Copy, Debug, Default, PartialEq, Eq)]
pub struct PlatformTimer<'a> {
    /// Kind: 0: the block. 1: the watchdog. The other isn't looked at.
    pub kind: u32,
    /// The physical address of the block's control frame.
    pub block_address: u64,
    /// Frames: block_address isn't looked at.
    pub frames: &'a [GtFrame],
    /// The watchdog.
    pub watchdog: Watchdog,
}

/// `struct zacpi_gtdt_contents`.
#[repr(C)]
#[derive(Clone, Copy, Debug, Default, PartialEq, Eq)]
pub struct GtdtContents<'a> {
    /// The timers of each processor.
    pub timers: ArmTimers,
    /// The platform timers.
    pub platform_timers: &'a [PlatformTimer<'a>],
}
