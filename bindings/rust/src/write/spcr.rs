// Made by scripts/erase of crates/acpi_writer/src/spcr.rt, where it is proved.
//! The Serial Port Console Redirection Table (SPCR, section 5.2.6), from what it contains of a serial port. Its layout
//! is Microsoft's.

pub(crate) mod fields;

use crate::base::Signature;
use crate::base::address::GenericAddress;
use crate::base::spcr::{SpcrFlowControl, SpcrInterfaceType, SpcrInterruptType, SpcrTerminalType};
use crate::table_writer::checked::require;
use crate::table_writer::error::WriterError;
use crate::table_writer::generic::is_named_space;
use crate::table_writer::ids::TableIds;
use crate::table_writer::spelled::Then;
use crate::table_writer::table::{Table, write};
use fields::Name;

/// The PCI device that a serial port is, as an SPCR has it.
#[derive(Clone, Copy, Debug)]
pub struct SpcrPciDevice {
    /// PCI Device ID, for none of which 0xffff is written.
    pub device_id: u16,
    /// PCI Vendor ID, for none of which 0xffff is written.
    pub vendor_id: u16,
    /// PCI Bus Number.
    pub bus: u8,
    /// PCI Device Number.
    pub device: u8,
    /// PCI Function Number.
    pub function: u8,
    /// PCI Flags: bit 0 set means that the operating system must neither suppress the device's enumeration nor disable
    /// its power management.
    pub flags: u32,
    /// PCI Segment: the PCI segment group of the device.
    pub segment: u8,
}

/// The contents of an SPCR, by the names of `Spcr`, as which it is read.
#[derive(Clone, Copy, Debug)]
pub struct SpcrContents<'a> {
    /// Interface Type: the interface of the port's registers.
    pub interface_type: SpcrInterfaceType,
    /// Base Address: where the registers are, or `None` if console redirection is off.
    pub base_address: Option<GenericAddress>,
    /// Interrupt Type: the controllers that the port's interrupt comes to.
    pub interrupt_type: SpcrInterruptType,
    /// IRQ: the interrupt on the 8259s. It is written as 0 unless Interrupt Type has them.
    pub irq: u8,
    /// Global System Interrupt. It is written as 0 unless Interrupt Type has another controller than the 8259s.
    pub global_system_interrupt: u32,
    /// Precise Baud Rate: the rate in bits per second, or 0 if it is to stay as it is. Configured Baud Rate has its
    /// code too, if it has one.
    pub baud_rate: u32,
    /// Parity: 0 is no parity, and other codes are reserved.
    pub parity: u8,
    /// Stop Bits: 1 is one stop bit, and other codes are reserved.
    pub stop_bits: u8,
    /// Flow Control: the ways in which the flow of bytes is controlled.
    pub flow_control: SpcrFlowControl,
    /// Terminal Type: the terminals that the firmware spoke to.
    pub terminal_type: SpcrTerminalType,
    /// Language: 0 by the layout.
    pub language: u8,
    /// The PCI device that the port is, if it is one.
    pub pci_device: Option<SpcrPciDevice>,
    /// UART Clock Frequency: the clock of the port in Hz, or 0 if it isn't known.
    pub uart_clock_frequency: u32,
    /// NamespaceString without the zero that ends it: the path of the port's object in the namespace, or `.` if it has
    /// none.
    pub namespace_string: &'a str,
}

/// Whether an interface's code is one of its own: `Unknown` has one that no other has.
fn is_interface(interface: SpcrInterfaceType) -> bool {
    match interface {
        SpcrInterfaceType::Unknown(code) => code == 7 || code > 0x15,
        _ => true,
    }
}

/// Whether the space of an address, if there is one, has a code of its own.
fn is_base(address: Option<GenericAddress>) -> bool {
    match address {
        Some(base) => is_named_space(base.address_space),
        None => true,
    }
}

/// Whether the interface and the base address have codes of their own.
fn has_codes(contents: &SpcrContents<'_>) -> bool {
    is_interface(contents.interface_type) && is_base(contents.base_address)
}

/// Whether an address, if there is one, isn't 0.
fn is_somewhere(address: Option<GenericAddress>) -> bool {
    match address {
        Some(base) => base.address != 0,
        None => true,
    }
}

impl<'a> Table for SpcrContents<'a> {
    type Body = Then<SpcrContents<'a>, Name<'a>>;

    fn head(&self) -> (Signature, u8) {
        (Signature::SPCR, 4)
    }

    fn check(&self) -> Result<(), WriterError> {
        require(has_codes(self), WriterError::BadCode)?;
        require(is_somewhere(self.base_address), WriterError::NoAddress)?;
        require(self.namespace_string.len() < 0xffff, WriterError::LongName)
    }

    fn body(&self) -> Then<SpcrContents<'a>, Name<'a>> {
        Then(*self, Name(self.namespace_string))
    }
}

/// Writes an SPCR of revision 4 to the front of a slice, and returns how many bytes it has: 88, and the bytes of its
/// name with the zero that ends it. Whether the name is a path isn't checked.
///
/// Returns, in this order, `BadCode` if the interface type or the base address's space has the code of another one or a
/// reserved code, `NoAddress` if the base address is 0, `LongName` if the name has 65535 bytes or more, `BadName` if a
/// name of the ids is not valid UTF-8, and `NoRoom` if the slice is shorter than the table.
pub fn write_spcr(out: &mut [u8], ids: &TableIds, contents: &SpcrContents<'_>) -> Result<usize, WriterError> {
    write(out, ids, contents)
}
