// Made by scripts/erase of crates/acpi_base/src/model/interrupt.rt, where it is proved.
//! Interrupt controllers, and how interrupts come to them (section 5.2.12).

use crate::alloc::TryClone;
use crate::alloc::{AllocError, Allocator};
use crate::base::managed_slice::ManagedSlice;

/// I/O APIC (ACPI 6.4, section 5.2.12.3).
#[derive(Clone, Copy, Debug)]
pub struct IoApic {
    /// I/O APIC ID: its id.
    pub id: u8,
    /// I/O APIC Address: the physical address of its registers.
    pub address: u32,
    /// Global System Interrupt Base: the global system interrupt of its first input.
    pub global_system_interrupt_base: u32,
}

/// Local APIC NMI or Local x2APIC NMI: the LINT pin that NMIs are connected to (ACPI 6.4, sections
/// 5.2.12.7 and 5.2.12.13).
#[derive(Clone, Copy, Debug)]
pub struct NmiLine {
    /// ACPI Processor UID: the processor that has the local APIC, or all of them.
    pub processor: NmiProcessor,
    /// LINT#: the pin of that local APIC.
    pub line: LocalInterruptLine,
}

/// LINT#: a pin of a local APIC (ACPI 6.4, sections 5.2.12.7 and 5.2.12.13).
#[derive(Clone, Copy, Debug, PartialEq, Eq)]
pub enum LocalInterruptLine {
    /// LINT0.
    Lint0 = 0,
    /// LINT1.
    Lint1 = 1,
}

impl LocalInterruptLine {
    /// Its number: LINT# (ACPI 6.4, sections 5.2.12.7 and 5.2.12.13).
    pub fn code(self) -> u8 {
        self as u8
    }
}

/// ACPI Processor UID of a Local APIC NMI or a Local x2APIC NMI: the processor to whose local APIC the NMI
/// comes (ACPI 6.4, sections 5.2.12.7 and 5.2.12.13).
#[derive(Clone, Copy, Debug, PartialEq, Eq)]
pub enum NmiProcessor {
    /// Every processor: the UID is 0xff in a Local APIC NMI, and 0xffffffff in a Local x2APIC NMI.
    All,
    /// The processor with this ACPI Processor UID.
    ProcessorUid(u32),
}

impl NmiProcessor {
    /// The UID that means all processors in a Local APIC NMI (ACPI 6.4, section 5.2.12.7).
    pub const ALL_APICS: u32 = 0xff;
    /// The UID that means all processors in a Local x2APIC NMI (ACPI 6.4, section 5.2.12.13).
    pub const ALL_X2APICS: u32 = 0xffffffff;

    /// Its ACPI Processor UID, if `all` means all processors.
    pub fn uid(self, all: u32) -> u32 {
        match self {
            NmiProcessor::All => all,
            NmiProcessor::ProcessorUid(uid) => uid,
        }
    }

    /// The processor of an ACPI Processor UID, if `all` means all processors.
    pub fn from_uid(uid: u32, all: u32) -> NmiProcessor {
        if uid == all { NmiProcessor::All } else { NmiProcessor::ProcessorUid(uid) }
    }
}

/// Polarity: the level at which an interrupt counts as raised (MPS INTI Flags; ACPI 6.4, section 5.2.12.5).
#[derive(Clone, Copy, Debug, PartialEq, Eq)]
pub enum Polarity {
    /// Conforms to the bus: the level of the bus that the interrupt comes from.
    SameAsBus = 0,
    /// Active high.
    ActiveHigh = 1,
    /// Active low.
    ActiveLow = 3,
}

impl Polarity {
    /// Its code: Polarity, bits 0 and 1 of MPS INTI Flags (ACPI 6.4, section 5.2.12.5).
    pub fn code(self) -> u8 {
        self as u8
    }
}

/// Trigger Mode: what raises an interrupt (MPS INTI Flags; ACPI 6.4, section 5.2.12.5).
#[derive(Clone, Copy, Debug, PartialEq, Eq)]
pub enum TriggerMode {
    /// Conforms to the bus: what raises an interrupt on the bus that it comes from.
    SameAsBus = 0,
    /// Edge-triggered: by the change to the level of its polarity.
    Edge = 1,
    /// Level-triggered: by the level of its polarity, for as long as it stays.
    Level = 3,
}

impl TriggerMode {
    /// Its code: Trigger Mode, bits 2 and 3 of MPS INTI Flags (ACPI 6.4, section 5.2.12.5).
    pub fn code(self) -> u8 {
        self as u8
    }
}

/// Interrupt Source Override: an ISA interrupt that is not wired to the global system interrupt of
/// the same number (ACPI 6.4, section 5.2.12.5).
#[derive(Clone, Copy, Debug)]
pub struct InterruptSourceOverride {
    /// Source: the interrupt (IRQ) on the ISA bus.
    pub isa_source: u8,
    /// Global System Interrupt: the interrupt that the source is wired to.
    pub global_system_interrupt: u32,
    /// Polarity: the level at which it counts as raised.
    pub polarity: Polarity,
    /// Trigger Mode: what raises it.
    pub trigger_mode: TriggerMode,
}

/// NMI Source: an interrupt that is to be non-maskable, and so can't be a device's (ACPI 6.4, section
/// 5.2.12.6).
#[derive(Clone, Copy, Debug)]
pub struct NmiSource {
    /// Global System Interrupt: the interrupt that is non-maskable.
    pub global_system_interrupt: u32,
    /// Polarity: the level at which it counts as raised.
    pub polarity: Polarity,
    /// Trigger Mode: what raises it.
    pub trigger_mode: TriggerMode,
}

/// The model of APICs: one local APIC for each processor, and I/O APICs (ACPI 6.4, section 5.2.12).
#[non_exhaustive]
pub struct Apic<A: Allocator> {
    /// Local APIC Address: the physical address of each processor's local APIC. It is that of the last
    /// Local APIC Address Override, else the table's own.
    pub local_apic_address: u64,
    /// I/O APICs, in the order of their entries.
    pub io_apics: ManagedSlice<IoApic, A>,
    /// Local APIC NMIs and Local x2APIC NMIs: the LINT pins of NMIs, in the order of their entries.
    pub local_apic_nmi_lines: ManagedSlice<NmiLine, A>,
    /// Interrupt Source Overrides, in the order of their entries.
    pub interrupt_source_overrides: ManagedSlice<InterruptSourceOverride, A>,
    /// NMI Sources: the interrupts that are non-maskable, in the order of their entries.
    pub nmi_sources: ManagedSlice<NmiSource, A>,
    /// PCAT_COMPAT: the machine has a pair of 8259 controllers too, which are to be masked.
    pub also_has_legacy_pics: bool,
}

/// Clones with the fields of the original, or `AllocError` if memory runs out, also for a clone of the
/// allocator.
impl<A: Allocator + TryClone> TryClone for Apic<A> {
    fn try_clone(&self) -> Result<Apic<A>, AllocError> {
        Ok(Apic {
            local_apic_address: self.local_apic_address,
            io_apics: self.io_apics.try_clone()?,
            local_apic_nmi_lines: self.local_apic_nmi_lines.try_clone()?,
            interrupt_source_overrides: self.interrupt_source_overrides.try_clone()?,
            nmi_sources: self.nmi_sources.try_clone()?,
            also_has_legacy_pics: self.also_has_legacy_pics,
        })
    }
}

/// The controllers that a machine's interrupts come to, as its MADT describes them (ACPI 6.4, section
/// 5.2.12).
#[non_exhaustive]
pub enum InterruptModel<A: Allocator> {
    /// The tables describe no APICs: a PC then has the pair of 8259 controllers alone.
    Unknown,
    /// Local APICs and I/O APICs.
    Apic(Apic<A>),
}

/// Clones with the fields of the original, or `AllocError` if memory runs out, also for a clone of the
/// allocator. For `Unknown` nothing is asked for.
impl<A: Allocator + TryClone> TryClone for InterruptModel<A> {
    fn try_clone(&self) -> Result<InterruptModel<A>, AllocError> {
        match self {
            InterruptModel::Unknown => Ok(InterruptModel::Unknown),
            InterruptModel::Apic(apic) => Ok(InterruptModel::Apic(apic.try_clone()?)),
        }
    }
}
