// Made by scripts/erase of crates/acpi_writer/src/spcr/fields.rt, where it is proved.
//! The fields of an SPCR, each with its bytes.

use super::{SpcrContents, SpcrPciDevice};
use crate::base::bytes::{bits, has_bit};
use crate::base::spcr::{SpcrFlowControl, SpcrInterruptType, SpcrTerminalType};
use crate::flags::Flags;
use crate::table_writer::fields::Field;
use crate::table_writer::spelled::{Bytes, Spelled, Then};

/// The PCI device, or the numbers of a port that is none.
pub(crate) fn device_of(device: Option<SpcrPciDevice>) -> SpcrPciDevice {
    match device {
        Some(device) => device,
        None => {
            SpcrPciDevice { device_id: 0xffff, vendor_id: 0xffff, bus: 0, device: 0, function: 0, flags: 0, segment: 0 }
        }
    }
}

/// The code of a rate, or 0, which leaves it as it is.
pub(crate) fn baud_code(rate: u32) -> u8 {
    if rate == 9600 {
        3
    } else if rate == 19200 {
        4
    } else if rate == 57600 {
        6
    } else if rate == 115200 {
        7
    } else {
        0
    }
}

/// The byte Interrupt Type.
pub(crate) fn interrupt_byte(interrupt_type: SpcrInterruptType) -> u8 {
    interrupt_type.bits()
}

/// IRQ, or 0 if the port has none on the 8259s.
pub(crate) fn irq_of(contents: &SpcrContents<'_>) -> u8 {
    if has_bit(interrupt_byte(contents.interrupt_type) as u64, 0) { contents.irq } else { 0 }
}

/// Global System Interrupt, or 0 if the port has none on another controller.
pub(crate) fn interrupt_of(contents: &SpcrContents<'_>) -> u32 {
    if bits(interrupt_byte(contents.interrupt_type) as u64, 1, 4) == 0 { 0 } else { contents.global_system_interrupt }
}

/// The byte Flow Control.
pub(crate) fn flow_byte(flow_control: SpcrFlowControl) -> u8 {
    flow_control.bits()
}

/// The byte Terminal Type.
pub(crate) fn terminal_byte(terminal_type: SpcrTerminalType) -> u8 {
    terminal_type.bits()
}

/// NamespaceStringLength: with the zero that ends the name.
pub(crate) fn name_length(contents: &SpcrContents<'_>) -> u16 {
    let length = contents.namespace_string.len() as u64 + 1;
    (length % 0x10000) as u16
}

/// NamespaceString, which a zero ends.
#[derive(Clone, Copy, Debug)]
pub struct Name<'a>(pub(super) &'a str);

impl Spelled for Name<'_> {
    fn measure(&self, room: usize) -> Option<usize> {
        let text = self.0.as_bytes();
        let size = text.len() + 1;
        if room < size { None } else { Some(size) }
    }

    fn put(&self, out: &mut [u8]) {
        Then(Bytes(self.0.as_bytes()), Field::U8(0)).put(out);
    }
}
