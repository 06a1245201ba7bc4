// Made by scripts/erase of crates/acpi_writer/src/fadt/parts.rt, where it is proved.
//! The parts of a FADT, each with its bytes (section 5.2.9).

use super::contents::{FadtContents, FadtHardware, FixedHardware};
use crate::base::address::{AccessSize, AddressSpace, GenericAddress};
use crate::fixed::fadt::GpeBlock;
use crate::table_writer::fields::{Field, Record};
use crate::table_writer::flags::flag_number;
use crate::table_writer::generic::register_or_zeros;
use crate::table_writer::spelled::{Each, Spelled};
use crate::write::made::fadt::{flags_with, front_fields, wide_fields};

/// The fixed hardware, with zeros throughout if there is none.
fn fixed_of(hardware: &FadtHardware) -> FixedHardware {
    match *hardware {
        FadtHardware::Fixed(given) => given,
        FadtHardware::Reduced => FixedHardware {
            smi_cmd_port: 0,
            acpi_enable: 0,
            acpi_disable: 0,
            s4bios_req: 0,
            pstate_control: 0,
            c_state_control: 0,
            pm1a_event: register_or_zeros(None),
            pm1b_event: None,
            pm1a_control: register_or_zeros(None),
            pm1b_control: None,
            pm2_control: None,
            pm_timer: None,
            gpe0: None,
            gpe1: None,
            gpe1_base: 0,
        },
    }
}

/// A block of general purpose events, as a register.
pub(crate) fn gpe_register(block: Option<GpeBlock>) -> Option<GenericAddress> {
    match block {
        Some(given) => Some(GenericAddress {
            address_space: given.space,
            bit_width: if given.byte_length < 32 { 8 * given.byte_length } else { 255 },
            bit_offset: 0,
            access_size: AccessSize::Undefined,
            address: given.address,
        }),
        None => None,
    }
}

/// The length of a block of general purpose events, in bytes.
pub(crate) fn gpe_length(block: Option<GpeBlock>) -> u8 {
    match block {
        Some(given) => given.byte_length,
        None => 0,
    }
}

/// The whole bytes of a register.
pub(crate) fn bytes_wide(register: Option<GenericAddress>) -> u8 {
    register_or_zeros(register).bit_width / 8
}

/// The bytes of the timer, if there is one.
pub(crate) fn timer_length(timer: Option<GenericAddress>) -> u8 {
    if timer.is_some() { 4 } else { 0 }
}

/// An address, if a field of 32 bits has a place for it, else 0.
pub(crate) fn narrow(address: u64) -> u32 {
    if address < 0x100000000 { address as u32 } else { 0 }
}

/// The port of a register, if it has one that a field of 32 bits has a place for, else 0.
pub(crate) fn port_of(register: Option<GenericAddress>) -> u32 {
    match register {
        Some(given) => match given.address_space {
            AddressSpace::SystemIo => narrow(given.address),
            _ => 0,
        },
        None => 0,
    }
}

/// An address, or 0.
pub(crate) fn address_or_zero(address: Option<u64>) -> u64 {
    match address {
        Some(given) => given,
        None => 0,
    }
}

/// Whether there is no fixed hardware.
fn is_reduced(hardware: &FadtHardware) -> bool {
    match *hardware {
        FadtHardware::Reduced => true,
        FadtHardware::Fixed(_) => false,
    }
}

/// Flags, as a number.
pub(crate) fn feature_number(contents: &FadtContents) -> u32 {
    flag_number(&flags_with(
        &contents.features,
        contents.reset_register.is_some(), // RESET_REG_SUP
        is_reduced(&contents.hardware),    // HW_REDUCED_ACPI
    ))
}

/// The fields before RESET_REG.
#[derive(Clone, Copy, Debug)]
pub struct Front(pub(super) FadtContents);

impl Record for Front {
    type Fields = [Field; 38];

    fn fields(&self) -> [Field; 38] {
        front_fields(&self.0, &fixed_of(&self.0.hardware))
    }
}

/// The fields between RESET_REG and the registers.
#[derive(Clone, Copy, Debug)]
pub struct Wide(pub(super) FadtContents);

impl Record for Wide {
    type Fields = [Field; 5];

    fn fields(&self) -> [Field; 5] {
        wide_fields(&self.0)
    }
}

/// The registers from X_PM1a_EVT_BLK to SLEEP_STATUS_REG.
fn registers(c: &FadtContents) -> [Option<GenericAddress>; 10] {
    let h = fixed_of(&c.hardware);
    [
        Some(h.pm1a_event),
        h.pm1b_event,
        Some(h.pm1a_control),
        h.pm1b_control,
        h.pm2_control,
        h.pm_timer,
        gpe_register(h.gpe0),
        gpe_register(h.gpe1),
        c.sleep_control,
        c.sleep_status,
    ]
}

/// The registers from X_PM1a_EVT_BLK to SLEEP_STATUS_REG, each with its bytes.
#[derive(Clone, Copy, Debug)]
pub struct WideRegisters(pub(super) FadtContents);

impl Spelled for WideRegisters {
    fn measure(&self, room: usize) -> Option<usize> {
        Each(&registers(&self.0)).measure(room)
    }

    fn put(&self, out: &mut [u8]) {
        Each(&registers(&self.0)).put(out);
    }
}
