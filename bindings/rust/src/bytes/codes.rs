// Made by scripts/erase of crates/acpi_bytes/src/codes.rt, where it is proved.
//! Made by scripts/codes: codes of values, and values of codes, as definitions in specs/ have them.

use crate::bytes::address::{AccessSize, AddressSpace};
use crate::bytes::error::{AcpiError, AcpiResult};

impl AddressSpace {
    /// Its code: Address Space ID (section 5.2.3.2).
    pub fn code(self) -> u8 {
        match self {
            AddressSpace::SystemMemory => 0x00,
            AddressSpace::SystemIo => 0x01,
            AddressSpace::PciConfigSpace => 0x02,
            AddressSpace::EmbeddedController => 0x03,
            AddressSpace::SMBus => 0x04,
            AddressSpace::SystemCmos => 0x05,
            AddressSpace::PciBarTarget => 0x06,
            AddressSpace::Ipmi => 0x07,
            AddressSpace::GeneralIo => 0x08,
            AddressSpace::GenericSerialBus => 0x09,
            AddressSpace::PlatformCommunicationsChannel => 0x0a,
            AddressSpace::FunctionalFixedHardware => 0x7f,
            AddressSpace::OemDefined(code) => code,
        }
    }
}

impl TryFrom<u8> for AddressSpace {
    type Error = AcpiError;

    /// The space of a code of Address Space ID (section 5.2.3.2).
    ///
    /// Fails for a reserved code with `InvalidGenericAddress`: 0x0b to 0xbf, but for 0x7f.
    fn try_from(code: u8) -> AcpiResult<AddressSpace> {
        match code {
            0x00 => Ok(AddressSpace::SystemMemory),
            0x01 => Ok(AddressSpace::SystemIo),
            0x02 => Ok(AddressSpace::PciConfigSpace),
            0x03 => Ok(AddressSpace::EmbeddedController),
            0x04 => Ok(AddressSpace::SMBus),
            0x05 => Ok(AddressSpace::SystemCmos),
            0x06 => Ok(AddressSpace::PciBarTarget),
            0x07 => Ok(AddressSpace::Ipmi),
            0x08 => Ok(AddressSpace::GeneralIo),
            0x09 => Ok(AddressSpace::GenericSerialBus),
            0x0a => Ok(AddressSpace::PlatformCommunicationsChannel),
            0x7f => Ok(AddressSpace::FunctionalFixedHardware),
            0xc0..=0xff => Ok(AddressSpace::OemDefined(code)),
            _ => Err(AcpiError::InvalidGenericAddress),
        }
    }
}

impl TryFrom<u8> for AccessSize {
    type Error = AcpiError;

    /// The access size of a code of Access Size (section 5.2.3.2).
    ///
    /// Fails for a reserved code with `InvalidGenericAddress`: 5 and above.
    fn try_from(code: u8) -> AcpiResult<AccessSize> {
        match code {
            0 => Ok(AccessSize::Undefined),
            1 => Ok(AccessSize::ByteAccess),
            2 => Ok(AccessSize::WordAccess),
            3 => Ok(AccessSize::DWordAccess),
            4 => Ok(AccessSize::QWordAccess),
            _ => Err(AcpiError::InvalidGenericAddress),
        }
    }
}
