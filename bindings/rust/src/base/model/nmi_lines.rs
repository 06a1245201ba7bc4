// Made by scripts/erase of crates/acpi_base/src/model/nmi_lines.rt, where it is proved.
//! The LINT pins of one processor's local APIC that NMIs are connected to (sections 5.2.12.7 and 5.2.12.13).

use super::interrupt::{Apic, NmiLine, NmiProcessor};
use crate::alloc::Allocator;

/// The LINT pins of one processor's local APIC that NMIs are connected to (ACPI 6.4, sections 5.2.12.7 and
/// 5.2.12.13), in the order of their entries, as `Apic::local_nmi_lines_for` returns them.
#[derive(Debug)]
pub struct LocalNmiLines<'a> {
    lines: &'a [NmiLine],
    processor_uid: u32,
}

impl<A: Allocator> Apic<A> {
    /// The LINT pins that NMIs are connected to at the local APIC of the processor with this ACPI
    /// Processor UID: the pins of all processors and its own, in the order of their entries (ACPI 6.4,
    /// sections 5.2.12.7 and 5.2.12.13).
    ///
    /// The ids that mean all processors in entries, 0xff and 0xffffffff, are ids like others
    /// here.
    pub fn local_nmi_lines_for(&self, processor_uid: u32) -> LocalNmiLines<'_> {
        LocalNmiLines { lines: self.local_apic_nmi_lines.as_slice(), processor_uid }
    }
}

/// Whether a LINT pin is one of this processor's: of all processors, or its own.
fn is_line_of(line: &NmiLine, processor_uid: u32) -> bool {
    match line.processor {
        NmiProcessor::All => true,
        NmiProcessor::ProcessorUid(uid) => uid == processor_uid,
    }
}

impl Iterator for LocalNmiLines<'_> {
    type Item = NmiLine;

    fn next(&mut self) -> Option<NmiLine> {
        while let Some((line, others)) = self.lines.split_first() {
            self.lines = others;
            if is_line_of(line, self.processor_uid) {
                return Some(*line);
            }
        }
        None
    }
}
