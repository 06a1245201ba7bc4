// Made by scripts/erase of crates/acpi_writer/src/fadt.rt, where it is proved.
//! The Fixed ACPI Description Table (FADT, section 5.2.9), from the hardware and the features that it describes.

mod contents;
pub(crate) mod parts;

use crate::base::Signature;
use crate::base::address::GenericAddress;
use crate::fixed::fadt::PowerProfile;
use crate::table_writer::checked::require;
use crate::table_writer::error::WriterError;
use crate::table_writer::fields::Field;
use crate::table_writer::generic::is_register;
use crate::table_writer::ids::TableIds;
use crate::table_writer::spelled::Then;
use crate::table_writer::table::{Table, write};
pub use crate::write::made::fadt::{ArmBootFeatures, FixedFeatures, PcBootFeatures};
pub use contents::{FadtContents, FadtHardware, FixedHardware, LegacyFields};
use parts::{Front, Wide, WideRegisters, gpe_register};

/// Whether the DSDT, and the FACS if there is one, are at an address other than 0.
fn are_placed(contents: &FadtContents) -> bool {
    let has_address = match contents.facs {
        Some(address) => address != 0,
        None => true,
    };
    contents.dsdt != 0 && has_address
}

/// Whether a profile is one that is named, or has a code that is reserved.
fn is_profile(profile: PowerProfile) -> bool {
    match profile {
        PowerProfile::Reserved(code) => code > 8,
        _ => true,
    }
}

/// Whether a block of fixed hardware, if there is one, has bytes, and can be read again.
fn is_block(block: Option<GenericAddress>) -> bool {
    let has_bytes = match block {
        Some(given) => given.bit_width >= 8,
        None => true,
    };
    is_register(block) && has_bytes
}

/// Whether each of these blocks, if it is there, has bytes, and can be read again.
fn are_all(blocks: &[Option<GenericAddress>]) -> bool {
    blocks.iter().all(|block| is_block(*block))
}

/// Whether the blocks of fixed hardware that are there have bytes, and can be read again.
fn are_blocks(hardware: &FadtHardware) -> bool {
    match *hardware {
        FadtHardware::Reduced => true,
        FadtHardware::Fixed(h) => {
            is_register(h.pm_timer)
                && are_all(&[
                    Some(h.pm1a_event),
                    Some(h.pm1a_control),
                    h.pm1b_event,
                    h.pm1b_control,
                    h.pm2_control,
                    gpe_register(h.gpe0),
                    gpe_register(h.gpe1),
                ])
        }
    }
}

/// Whether each register can be read again.
fn are_registers(contents: &FadtContents) -> bool {
    are_blocks(&contents.hardware)
        && is_register(contents.reset_register)
        && is_register(contents.sleep_control)
        && is_register(contents.sleep_status)
}

impl Table for FadtContents {
    type Body = Then<Front, Then<Option<GenericAddress>, Then<Wide, Then<WideRegisters, Field>>>>;

    fn head(&self) -> (Signature, u8) {
        (Signature::FADT, 6)
    }

    fn check(&self) -> Result<(), WriterError> {
        require(are_placed(self), WriterError::NoAddress)?;
        require(is_profile(self.power_profile), WriterError::BadProfile)?;
        require(are_registers(self), WriterError::BadRegister)
    }

    fn body(&self) -> Self::Body {
        let last = Then(WideRegisters(*self), Field::Zeros(8));
        Then(Front(*self), Then(self.reset_register, Then(Wide(*self), last)))
    }
}

/// Writes a FADT of version 6.4, 276 bytes, to the front of a slice, and returns how many bytes it has. Each address
/// and each block is in its X_ field, and in its field of 32 bits too if it fits there, a block if it is one of
/// ports. PM1_EVT_LEN, PM1_CNT_LEN and PM2_CNT_LEN are the whole bytes of the block's width, by its first block, and
/// PM_TMR_LEN is 4. A block of general purpose events has a width of 255 if it is of 32 bytes or more. What isn't
/// given, and all of fixed hardware on a machine of reduced hardware, is 0, and so are the reserved fields and
/// Hypervisor Vendor Identity.
///
/// Returns, in this order, `NoAddress` if the DSDT or the FACS is at address 0, `BadProfile` if a `Reserved` profile
/// has the code of one that has a name, `BadRegister` if a register is at address 0 or in an `OemDefined` space below
/// 0xc0, or if a block of fixed hardware but the timer's has no whole byte, `BadName` if a name of the ids is not valid
/// UTF-8, and `NoRoom` if the slice is shorter than the table.
pub fn write_fadt(out: &mut [u8], ids: &TableIds, contents: &FadtContents) -> Result<usize, WriterError> {
    write(out, ids, contents)
}
