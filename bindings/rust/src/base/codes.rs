// Made by scripts/erase of crates/acpi_base/src/codes.rt, where it is proved.
//! Made by scripts/codes: codes of values, and values of codes, as definitions in specs/ have them.

use crate::base::MadtError;
use crate::base::model::{LocalInterruptLine, Polarity, TriggerMode};
use crate::base::spcr::SpcrInterfaceType;

impl TryFrom<u8> for Polarity {
    type Error = MadtError;

    /// The polarity of a code. Fails for other codes, which are reserved, with `MpsIntiInvalidPolarity`.
    fn try_from(code: u8) -> Result<Polarity, MadtError> {
        match code {
            0 => Ok(Polarity::SameAsBus),
            1 => Ok(Polarity::ActiveHigh),
            3 => Ok(Polarity::ActiveLow),
            _ => Err(MadtError::MpsIntiInvalidPolarity),
        }
    }
}

impl TryFrom<u8> for TriggerMode {
    type Error = MadtError;

    /// The trigger mode of a code. Fails for other codes, which are reserved, with `MpsIntiInvalidTriggerMode`.
    fn try_from(code: u8) -> Result<TriggerMode, MadtError> {
        match code {
            0 => Ok(TriggerMode::SameAsBus),
            1 => Ok(TriggerMode::Edge),
            3 => Ok(TriggerMode::Level),
            _ => Err(MadtError::MpsIntiInvalidTriggerMode),
        }
    }
}

impl TryFrom<u8> for LocalInterruptLine {
    type Error = MadtError;

    /// The pin of a number. Fails for other numbers than 0 and 1 with `InvalidLocalNmiLine`.
    fn try_from(code: u8) -> Result<LocalInterruptLine, MadtError> {
        match code {
            0 => Ok(LocalInterruptLine::Lint0),
            1 => Ok(LocalInterruptLine::Lint1),
            _ => Err(MadtError::InvalidLocalNmiLine),
        }
    }
}

impl From<u8> for SpcrInterfaceType {
    /// The interface of a code of Interface Type.
    fn from(code: u8) -> SpcrInterfaceType {
        match code {
            0x00 => SpcrInterfaceType::Full16550,
            0x01 => SpcrInterfaceType::Full16450,
            0x02 => SpcrInterfaceType::MAX311xE,
            0x03 => SpcrInterfaceType::ArmPL011,
            0x04 => SpcrInterfaceType::MSM8x60,
            0x05 => SpcrInterfaceType::Nvidia16550,
            0x06 => SpcrInterfaceType::TiOmap,
            0x08 => SpcrInterfaceType::APM88xxxx,
            0x09 => SpcrInterfaceType::Msm8974,
            0x0a => SpcrInterfaceType::Sam5250,
            0x0b => SpcrInterfaceType::IntelUSIF,
            0x0c => SpcrInterfaceType::Imx6,
            0x0d => SpcrInterfaceType::ArmSBSAGeneric32bit,
            0x0e => SpcrInterfaceType::ArmSBSAGeneric,
            0x0f => SpcrInterfaceType::ArmDCC,
            0x10 => SpcrInterfaceType::Bcm2835,
            0x11 => SpcrInterfaceType::Sdm845_18432,
            0x12 => SpcrInterfaceType::Generic16550,
            0x13 => SpcrInterfaceType::Sdm845_7372,
            0x14 => SpcrInterfaceType::IntelLPSS,
            0x15 => SpcrInterfaceType::RiscVSbi,
            other => SpcrInterfaceType::Unknown(other),
        }
    }
}

impl SpcrInterfaceType {
    /// Its code: Interface Type of the SPCR.
    pub fn code(self) -> u8 {
        match self {
            SpcrInterfaceType::Full16550 => 0x00,
            SpcrInterfaceType::Full16450 => 0x01,
            SpcrInterfaceType::MAX311xE => 0x02,
            SpcrInterfaceType::ArmPL011 => 0x03,
            SpcrInterfaceType::MSM8x60 => 0x04,
            SpcrInterfaceType::Nvidia16550 => 0x05,
            SpcrInterfaceType::TiOmap => 0x06,
            SpcrInterfaceType::APM88xxxx => 0x08,
            SpcrInterfaceType::Msm8974 => 0x09,
            SpcrInterfaceType::Sam5250 => 0x0a,
            SpcrInterfaceType::IntelUSIF => 0x0b,
            SpcrInterfaceType::Imx6 => 0x0c,
            SpcrInterfaceType::ArmSBSAGeneric32bit => 0x0d,
            SpcrInterfaceType::ArmSBSAGeneric => 0x0e,
            SpcrInterfaceType::ArmDCC => 0x0f,
            SpcrInterfaceType::Bcm2835 => 0x10,
            SpcrInterfaceType::Sdm845_18432 => 0x11,
            SpcrInterfaceType::Generic16550 => 0x12,
            SpcrInterfaceType::Sdm845_7372 => 0x13,
            SpcrInterfaceType::IntelLPSS => 0x14,
            SpcrInterfaceType::RiscVSbi => 0x15,
            SpcrInterfaceType::Unknown(code) => code,
        }
    }
}
