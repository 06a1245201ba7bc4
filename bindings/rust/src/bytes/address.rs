// Made by scripts/erase of crates/acpi_bytes/src/address.rt, where it is proved.
//! The Generic Address Structure (GAS): a register, by a number in one of several address spaces (section
//! 5.2.3.2).

use crate::bytes::bytes::{field_in, filled, u8_in};
use crate::bytes::error::AcpiResult;
use crate::bytes::handler::PhysicalRecord;

/// Address Space ID: the space in which the number of a generic address counts (section 5.2.3.2).
#[derive(Clone, Copy, Debug, PartialEq, Eq)]
#[non_exhaustive]
pub enum AddressSpace {
    /// System Memory, code 0x00: memory, by its physical address.
    SystemMemory,
    /// System I/O, code 0x01: the processor's ports.
    SystemIo,
    /// PCI Configuration space, code 0x02: that of a PCI device on bus 0 of segment 0, with the device in
    /// bits 32 to 47, the function in bits 16 to 31, the offset in bits 0 to 15.
    PciConfigSpace,
    /// Embedded Controller, code 0x03: the space of an embedded controller.
    EmbeddedController,
    /// SMBus, code 0x04: the space of a system management bus.
    SMBus,
    /// SystemCMOS, code 0x05: the memory of the real time clock.
    SystemCmos,
    /// PciBarTarget, code 0x06: the space that a base address register of a PCI device points to.
    PciBarTarget,
    /// IPMI, code 0x07: the space of an intelligent platform management interface.
    Ipmi,
    /// General Purpose I/O, code 0x08: the pins of a general purpose I/O controller.
    GeneralIo,
    /// GenericSerialBus, code 0x09: the space of a device on a serial bus.
    GenericSerialBus,
    /// Platform Communications Channel (PCC), code 0x0a: a channel to the platform's controller.
    PlatformCommunicationsChannel,
    /// Functional Fixed Hardware, code 0x7f: a space that the maker of the processor defines.
    FunctionalFixedHardware,
    /// OEM Defined, codes 0xc0 to 0xff: a space of the maker's own, with its code.
    OemDefined(u8),
}

/// Access Size: how many bytes of a register are read and written at once (section 5.2.3.2).
#[derive(Clone, Copy, Debug, PartialEq, Eq)]
pub enum AccessSize {
    /// Undefined: as many as the space and the register require.
    Undefined = 0,
    /// Byte access: one byte.
    ByteAccess = 1,
    /// Word access: two bytes.
    WordAccess = 2,
    /// Dword access: four bytes.
    DWordAccess = 3,
    /// QWord access: eight bytes.
    QWordAccess = 4,
}

impl AccessSize {
    /// Its code: Access Size (section 5.2.3.2).
    pub fn code(self) -> u8 {
        self as u8
    }
}

/// The twelve bytes of a Generic Address Structure, as a table has them (section 5.2.3.2).
pub type RawAddress = [u8; 12];

impl PhysicalRecord for RawAddress {
    const MIN_LENGTH: usize = 12;

    #[inline(always)]
    fn read(bytes: &[u8]) -> RawAddress {
        filled(bytes, 0)
    }
}

/// Generic Address Structure (GAS): a register (section 5.2.3.2). It has `bit_width` bits, the first of them
/// `bit_offset` bits after the lowest one at `address` in the address space.
#[derive(Clone, Copy, Debug, PartialEq, Eq)]
pub struct GenericAddress {
    /// Address Space ID: the space in which `address` counts.
    pub address_space: AddressSpace,
    /// Register Bit Width: how many bits the register has.
    pub bit_width: u8,
    /// Register Bit Offset: the number of bits before the register at `address`.
    pub bit_offset: u8,
    /// Access Size: how many bytes of the register are read and written at once.
    pub access_size: AccessSize,
    /// Address: the register's address in that space.
    pub address: u64,
}

impl GenericAddress {
    /// The register that the twelve bytes of a Generic Address Structure encode: Address Space ID, Register
    /// Bit Width, Register Bit Offset and Access Size in one byte each, then Address (section 5.2.3.2).
    ///
    /// Fails for a reserved code of the space, or else of the access size, with
    /// `InvalidGenericAddress`.
    #[inline(always)]
    pub fn read(raw: &RawAddress) -> AcpiResult<GenericAddress> {
        let address_space = AddressSpace::try_from(u8_in(raw, 0))?; // Address Space ID
        let access_size = AccessSize::try_from(u8_in(raw, 3))?; // Access Size
        Ok(GenericAddress {
            address_space,
            bit_width: u8_in(raw, 1),  // Register Bit Width
            bit_offset: u8_in(raw, 2), // Register Bit Offset
            access_size,
            address: field_in(raw, 4, 8), // Address
        })
    }

    /// The register that twelve bytes encode, as `read` reads it, and with its errors.
    pub fn from_raw(raw: RawAddress) -> AcpiResult<GenericAddress> {
        GenericAddress::read(&raw)
    }
}
