// Made by scripts/erase of crates/acpi_table_writer/src/madt.rt, where it is proved.
//! The Multiple APIC Description Table (MADT, section 5.2.12), from lists of processors and interrupt controllers.

pub(crate) mod entries;
pub mod gic;
pub mod riscv;

use crate::alloc::AllocError;
use crate::base::Signature;
use crate::base::model::{
    InterruptSourceOverride, IoApic, LocalInterruptLine, NmiProcessor, NmiSource, Polarity, TriggerMode,
};
use crate::table_writer::checked::require;
use crate::table_writer::error::WriterError;
use crate::table_writer::ids::TableIds;
use crate::table_writer::spelled::{EachItem, StandsFor, Then};
use crate::table_writer::table::{Table, write};
use core::marker::PhantomData;
pub use entries::Fixed;
use entries::{AddressOverride, Wakeup};

/// A processor that a MADT is to list (sections 5.2.12.2 and 5.2.12.12).
#[derive(Clone, Copy, Debug)]
pub struct MadtProcessor {
    /// ACPI Processor UID.
    pub processor_uid: u32,
    /// APIC ID or X2APIC ID.
    pub local_apic_id: u32,
    /// Enabled, bit 0 of the flags: whether the processor can be used.
    pub is_enabled: bool,
    /// Online Capable, bit 1 of the flags: whether a processor that is not enabled can be enabled later. The
    /// specification wants it clear if Enabled is set.
    pub is_online_capable: bool,
    /// Whether it is to be a Processor Local x2APIC also if its ids have a place in a Processor Local APIC.
    pub is_x2apic: bool,
}

/// A LINT pin that NMIs are connected to, which a MADT is to list (sections 5.2.12.7 and 5.2.12.13).
#[derive(Clone, Copy, Debug)]
pub struct MadtNmiLine {
    /// The processors whose local APICs it is a pin of.
    pub processor: NmiProcessor,
    /// The pin.
    pub line: LocalInterruptLine,
    /// Polarity, bits 0 and 1 of the flags.
    pub polarity: Polarity,
    /// Trigger Mode, bits 2 and 3 of the flags.
    pub trigger_mode: TriggerMode,
}

/// What a MADT is to contain, in the words of `InterruptModel` and `ProcessorInfo`, as which it is read; or of what is
/// written for them.
#[derive(Copy, Debug)]
pub struct MadtContents<'a, P = MadtProcessor, I = IoApic, O = InterruptSourceOverride, S = NmiSource, L = MadtNmiLine>
{
    /// The physical address of each processor's local APIC.
    pub local_apic_address: u64,
    /// PCAT_COMPAT: the machine has a pair of 8259 controllers too.
    pub also_has_legacy_pics: bool,
    /// The processors, of which the first is the boot processor.
    pub processors: &'a [P],
    /// I/O APICs.
    pub io_apics: &'a [I],
    /// Interrupt Source Overrides.
    pub interrupt_source_overrides: &'a [O],
    /// NMI Sources.
    pub nmi_sources: &'a [S],
    /// Local APIC NMIs and Local x2APIC NMIs.
    pub local_apic_nmi_lines: &'a [L],
    /// MailBoxAddress: the physical address of the mailbox by which the firmware's processors are woken, if they are
    /// woken so (section 5.2.12.19).
    pub wakeup_mailbox: Option<u64>,
}

impl<P: Copy, I: Copy, O: Copy, S: Copy, L: Copy> Clone for MadtContents<'_, P, I, O, S, L> {
    fn clone(&self) -> Self {
        *self
    }
}

/// Whether neither the uid nor the id is the one that means all processors.
fn is_single(processor: MadtProcessor) -> bool {
    processor.processor_uid < 0xffffffff && processor.local_apic_id < 0xffffffff
}

/// Whether no processor has a number that means all.
fn processors_fit<P: StandsFor<MadtProcessor>>(processors: &[P]) -> bool {
    for processor in processors {
        if !is_single(processor.item()) {
            return false;
        }
    }
    true
}

/// Whether this isn't the uid that means all processors.
fn names_one(processor: NmiProcessor) -> bool {
    match processor {
        NmiProcessor::All => true,
        NmiProcessor::ProcessorUid(uid) => uid < 0xffffffff,
    }
}

/// Whether no line is of the uid that means all processors.
fn lines_fit<L: StandsFor<MadtNmiLine>>(lines: &[L]) -> bool {
    for line in lines {
        if !names_one(line.item().processor) {
            return false;
        }
    }
    true
}

/// Whether there is one.
pub(crate) fn has_some<T>(xs: &[T]) -> bool {
    match xs {
        [] => false,
        [_, ..] => true,
    }
}

impl<'a, P, I, O, S, L> Table for MadtContents<'a, P, I, O, S, L>
where
    P: StandsFor<MadtProcessor>,
    I: StandsFor<IoApic>,
    O: StandsFor<InterruptSourceOverride>,
    S: StandsFor<NmiSource>,
    L: StandsFor<MadtNmiLine>,
{
    type Body = Then<
        Fixed,
        Then<
            EachItem<'a, MadtProcessor, P>,
            Then<
                AddressOverride,
                Then<
                    EachItem<'a, IoApic, I>,
                    Then<
                        EachItem<'a, InterruptSourceOverride, O>,
                        Then<EachItem<'a, NmiSource, S>, Then<EachItem<'a, MadtNmiLine, L>, Wakeup>>,
                    >,
                >,
            >,
        >,
    >;

    fn head(&self) -> (Signature, u8) {
        (Signature::MADT, 5)
    }

    fn check(&self) -> Result<(), WriterError> {
        require(has_some(self.processors), WriterError::NoProcessor)?;
        require(processors_fit(self.processors), WriterError::IdOfAll)?;
        require(lines_fit(self.local_apic_nmi_lines), WriterError::UidOfAll)
    }

    /// The fixed fields, and the entries sort by sort.
    fn body(&self) -> Self::Body {
        let fixed =
            Fixed { local_apic_address: self.local_apic_address, also_has_legacy_pics: self.also_has_legacy_pics };
        let wakeup = Wakeup(self.wakeup_mailbox);
        let lines = Then(EachItem(self.local_apic_nmi_lines, PhantomData), wakeup);
        let nmis = Then(EachItem(self.nmi_sources, PhantomData), lines);
        let wirings = Then(EachItem(self.interrupt_source_overrides, PhantomData), nmis);
        let controllers = Then(EachItem(self.io_apics, PhantomData), wirings);
        let address = Then(AddressOverride(self.local_apic_address), controllers);
        Then(fixed, Then(EachItem(self.processors, PhantomData), address))
    }
}

/// Writes a MADT of revision 5 to the front of a slice, and returns how many bytes it has. Its entries come sort by
/// sort, in the order of the fields: a processor is a Processor Local APIC if both its ids are below 255 and it isn't
/// to be an x2APIC, otherwise a Processor Local x2APIC. An NMI line is a Local x2APIC NMI if its uid is 255 or above,
/// whatever the id of that processor is (section 5.2.12.13 goes by the id); one of all processors is a Local APIC NMI
/// of uid 255. An address of the local APICs of 2^32 or above has an entry of its own, a Local APIC Address Override,
/// after the processors. Two processors of one uid, and one with both flags set, are written as they are.
///
/// Returns, in this order, `NoProcessor` if there is no processor, `IdOfAll` if a processor's uid or id is 0xffffffff,
/// `UidOfAll` if an NMI line is of the processor 0xffffffff, `BadName` if a name of the ids is not valid UTF-8,
/// `NoRoom` if the slice is shorter than the table, and `TooLong` if the table has 2^32 bytes or more.
pub fn write_madt<P, I, O, S, L>(
    out: &mut [u8],
    ids: &TableIds,
    contents: &MadtContents<'_, P, I, O, S, L>,
) -> Result<usize, WriterError>
where
    P: StandsFor<MadtProcessor>,
    I: StandsFor<IoApic>,
    O: StandsFor<InterruptSourceOverride>,
    S: StandsFor<NmiSource>,
    L: StandsFor<MadtNmiLine>,
{
    write(out, ids, contents)
}
