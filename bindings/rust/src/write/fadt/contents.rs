// Made by scripts/erase of crates/acpi_writer/src/fadt/contents.rt, where it is proved.
//! The contents of a FADT (section 5.2.9).

use crate::base::address::GenericAddress;
use crate::fixed::fadt::{GpeBlock, PowerProfile};
use crate::write::made::fadt::{ArmBootFeatures, FixedFeatures, PcBootFeatures};

/// The fixed hardware of a machine: its blocks of registers, and the commands that take them over (section 5.2.9).
#[derive(Clone, Copy, Debug)]
pub struct FixedHardware {
    /// SMI_CMD: the port that the commands are written to, 0 if there is no system management mode.
    pub smi_cmd_port: u32,
    /// ACPI_ENABLE: the command that takes the registers from the firmware.
    pub acpi_enable: u8,
    /// ACPI_DISABLE: the command that returns them.
    pub acpi_disable: u8,
    /// S4BIOS_REQ: the command that requests S4 from the firmware.
    pub s4bios_req: u8,
    /// PSTATE_CNT: the command that takes over the processors' performance states.
    pub pstate_control: u8,
    /// CST_CNT: the command that tells that the system follows changes of C states.
    pub c_state_control: u8,
    /// PM1a_EVT_BLK: the status and enable registers of the fixed events.
    pub pm1a_event: GenericAddress,
    /// PM1b_EVT_BLK: the second block of event registers, as long as the first.
    pub pm1b_event: Option<GenericAddress>,
    /// PM1a_CNT_BLK: the control registers.
    pub pm1a_control: GenericAddress,
    /// PM1b_CNT_BLK: the second block of control registers, as long as the first.
    pub pm1b_control: Option<GenericAddress>,
    /// PM2_CNT_BLK: the second control register.
    pub pm2_control: Option<GenericAddress>,
    /// PM_TMR_BLK: the power management timer, of four bytes.
    pub pm_timer: Option<GenericAddress>,
    /// GPE0_BLK: the registers of the first general purpose events.
    pub gpe0: Option<GpeBlock>,
    /// GPE1_BLK: the registers of further general purpose events.
    pub gpe1: Option<GpeBlock>,
    /// GPE1_BASE: the number of the first event of GPE1_BLK.
    pub gpe1_base: u8,
}

/// What hardware a FADT is of.
#[derive(Clone, Copy, Debug)]
#[non_exhaustive]
pub enum FadtHardware {
    /// HW_REDUCED_ACPI: there is no fixed hardware.
    Reduced,
    /// Fixed hardware.
    Fixed(FixedHardware),
}

/// What a FADT contains of processors and of the clock, in fields of its first versions (section 5.2.9).
#[derive(Clone, Copy, Debug)]
pub struct LegacyFields {
    /// P_LVL2_LAT: the longest time into C2 and back, in microseconds. Above 100: there is no C2.
    pub worst_c2_latency: u16,
    /// P_LVL3_LAT: the longest time into C3 and back, in microseconds. Above 1000: there is no C3.
    pub worst_c3_latency: u16,
    /// FLUSH_SIZE: how many strides to read to write back all caches, if `WBINVD` doesn't do it.
    pub flush_size: u16,
    /// FLUSH_STRIDE: the width of a cache line, in bytes.
    pub flush_stride: u16,
    /// DUTY_OFFSET: the place of the duty cycle's setting in P_CNT, in bits.
    pub duty_offset: u8,
    /// DUTY_WIDTH: how wide the duty cycle's setting is, in bits.
    pub duty_width: u8,
    /// DAY_ALRM: the clock's register of the alarm's day of the month, 0 if there is none.
    pub day_alarm: u8,
    /// MON_ALRM: the clock's register of the alarm's month, 0 if there is none.
    pub month_alarm: u8,
    /// CENTURY: the clock's register of the century, 0 if there is none.
    pub century: u8,
}

impl LegacyFields {
    /// Neither C2 nor C3, and zeros for the rest.
    pub const NONE: LegacyFields = LegacyFields {
        worst_c2_latency: 0xfff,
        worst_c3_latency: 0xfff,
        flush_size: 0,
        flush_stride: 0,
        duty_offset: 0,
        duty_width: 0,
        day_alarm: 0,
        month_alarm: 0,
        century: 0,
    };
}

/// The contents of a FADT, by the names of `Fadt`, as which it is read (section 5.2.9).
#[derive(Clone, Copy, Debug)]
pub struct FadtContents {
    /// The physical address of the DSDT.
    pub dsdt: u64,
    /// The physical address of the FACS, if there is one.
    pub facs: Option<u64>,
    /// Preferred_PM_Profile: the machine's purpose.
    pub power_profile: PowerProfile,
    /// SCI_INT: the interrupt that carries the machine's events.
    pub sci_interrupt: u16,
    /// The fixed hardware, or that there is none.
    pub hardware: FadtHardware,
    /// RESET_REG: the register that resets the machine, if there is one.
    pub reset_register: Option<GenericAddress>,
    /// RESET_VALUE: the value that resets the machine if it is written to that register.
    pub reset_value: u8,
    /// SLEEP_CONTROL_REG: the register that puts a machine of reduced hardware to sleep.
    pub sleep_control: Option<GenericAddress>,
    /// SLEEP_STATUS_REG: the register that tells how such a machine woke.
    pub sleep_status: Option<GenericAddress>,
    /// Flags, but for HW_REDUCED_ACPI and RESET_REG_SUP, which follow from the fields above.
    pub features: FixedFeatures,
    /// IAPC_BOOT_ARCH: the devices of a PC.
    pub pc_boot: PcBootFeatures,
    /// ARM_BOOT_ARCH: the way in which the firmware of an Arm machine is called.
    pub arm_boot: ArmBootFeatures,
    /// Processors and the clock.
    pub legacy: LegacyFields,
}
