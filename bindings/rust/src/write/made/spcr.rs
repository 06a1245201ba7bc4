// Made by scripts/erase of crates/acpi_writer/src/made/spcr.rt, where it is proved.
//! Made by scripts/written of specs/Spcr.antt.

use crate::table_writer::fields::{Field, Record};
use crate::table_writer::generic::register_or_zeros;
use crate::write::spcr::SpcrContents;
use crate::write::spcr::fields::{
    baud_code, device_of, flow_byte, interrupt_byte, interrupt_of, irq_of, name_length, terminal_byte,
};

/// The fixed fields, with this base address and PCI device.
impl Record for SpcrContents<'_> {
    type Fields = [Field; 27];

    fn fields(&self) -> [Field; 27] {
        let a = register_or_zeros(self.base_address);
        let d = device_of(self.pci_device);
        [
            // 36: Interface Type, 37: Reserved
            Field::U8(self.interface_type.code()),
            Field::Zeros(3),
            // 40: Base Address
            Field::U8(a.address_space.code()),
            Field::U8(a.bit_width),
            Field::U8(a.bit_offset),
            Field::U8(a.access_size.code()),
            Field::U64(a.address),
            // 52: Interrupt Type, 53: IRQ
            Field::U8(interrupt_byte(self.interrupt_type)),
            Field::U8(irq_of(self)),
            // 54: Global System Interrupt
            Field::U32(interrupt_of(self)),
            // 58: Configured Baud Rate, 59: Parity, 60: Stop Bits
            Field::U8(baud_code(self.baud_rate)),
            Field::U8(self.parity),
            Field::U8(self.stop_bits),
            // 61: Flow Control, 62: Terminal Type
            Field::U8(flow_byte(self.flow_control)),
            Field::U8(terminal_byte(self.terminal_type)),
            // 63: Language, 64: PCI Device ID, 66: PCI Vendor ID
            Field::U8(self.language),
            Field::U16(d.device_id),
            Field::U16(d.vendor_id),
            // 68: PCI Bus Number, 69: PCI Device Number, 70: PCI Function Number
            Field::U8(d.bus),
            Field::U8(d.device),
            Field::U8(d.function),
            // 71: PCI Flags, 75: PCI Segment
            Field::U32(d.flags),
            Field::U8(d.segment),
            // 76: UART Clock Frequency, 80: Precise Baud Rate
            Field::U32(self.uart_clock_frequency),
            Field::U32(self.baud_rate),
            // 84: NamespaceStringLength
            Field::U16(name_length(self)),
            // 86: NamespaceStringOffset
            Field::U16(88),
        ]
    }
}
