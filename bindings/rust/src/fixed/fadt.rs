// Made by scripts/erase of crates/acpi_fixed/src/fadt.rt, where it is proved.
//! The Fixed ACPI Description Table (FADT): the registers of the fixed hardware, and its features (section
//! 5.2.9).

mod codes;
mod flags;
mod offsets;
mod readings;
mod registers;
mod short;
mod view;

use crate::base::address::GenericAddress;
use crate::base::bytes::u8_in;
use crate::base::sdt::SdtHeader;
use crate::base::{AcpiError, AcpiResult, PhysicalRecord, SdtTable, Signature};
pub use flags::{ArmBootArchFlags, FixedFeatureFlags, IaPcBootArchFlags};
use readings::fadt_at;
pub use registers::GpeBlock;
use registers::{BLOCKS_END, Registers, address_from, register_from};
use short::whole;
pub use view::FadtView;

/// Preferred_PM_Profile: the machine's purpose (ACPI 6.4, section 5.2.9).
#[derive(Clone, Copy, Debug, PartialEq, Eq)]
#[non_exhaustive]
pub enum PowerProfile {
    /// Unspecified, code 0: the firmware leaves it open.
    Unspecified,
    /// Desktop, code 1: one user, on a desk, always on the mains.
    Desktop,
    /// Mobile, code 2: carried about, on its battery at times.
    Mobile,
    /// Workstation, code 3: one user, on a desk, with more to compute than a desktop.
    Workstation,
    /// Enterprise Server, code 4: many users, in a room of its own.
    EnterpriseServer,
    /// SOHO Server, code 5: a server for a small office or a home.
    SohoServer,
    /// Appliance PC, code 6: a quiet device for the home, as a set-top box or a gateway.
    AppliancePc,
    /// Performance Server, code 7: a server that may spend power for speed.
    PerformanceServer,
    /// Tablet, code 8: carried about, and used by touch.
    Tablet,
    /// Any other code, which is reserved, with that code.
    Reserved(u8),
}

impl PowerProfile {
    /// Its code: Preferred_PM_Profile (ACPI 6.4, section 5.2.9.1).
    pub fn code(self) -> u8 {
        match self {
            PowerProfile::Unspecified => 0,
            PowerProfile::Desktop => 1,
            PowerProfile::Mobile => 2,
            PowerProfile::Workstation => 3,
            PowerProfile::EnterpriseServer => 4,
            PowerProfile::SohoServer => 5,
            PowerProfile::AppliancePc => 6,
            PowerProfile::PerformanceServer => 7,
            PowerProfile::Tablet => 8,
            PowerProfile::Reserved(code) => code,
        }
    }
}

/// The Fixed ACPI Description Table, FADT (ACPI 6.4, section 5.2.9). A public field that reaches
/// past the end of a short table is read as if zeros followed.
///
/// Later versions of the table contain an address a second time in a wider field. The functions here take
/// that one if a table of revision 2 or above has it whole and it isn't 0.
// The fields are as in the table, but for two that fill a gap, so that most of them are read as pieces of it.
#[derive(Clone, Copy, Debug)]
pub struct Fadt {
    header: SdtHeader,
    firmware_ctrl: u32,
    dsdt_address: u32,
    preferred_pm_profile: u8,
    /// SCI_INT: the interrupt that carries the machine's events: a vector of the 8259, or a global
    /// system interrupt if the machine has no 8259.
    pub sci_interrupt: u16,
    /// SMI_CMD: the port that the commands below are written to. 0: the machine has no system
    /// management mode.
    pub smi_cmd_port: u32,
    /// ACPI_ENABLE: the command that takes the hardware registers from the firmware.
    pub acpi_enable: u8,
    /// ACPI_DISABLE: the command that returns the hardware registers to the firmware.
    pub acpi_disable: u8,
    /// S4BIOS_REQ: the command that requests S4 of the firmware.
    pub s4bios_req: u8,
    /// PSTATE_CNT: the command that takes over the processors' performance states. 0: there is
    /// none.
    pub pstate_control: u8,
    registers: Registers,
    /// GPE1_BASE: the number of the first event of the second block of general purpose events.
    pub gpe1_base: u8,
    /// CST_CNT: the command by which the system follows changes of C states.
    pub c_state_control: u8,
    /// P_LVL2_LAT: the longest time into C2 and back, in microseconds. Above 100: there is no C2.
    pub worst_c2_latency: u16,
    /// P_LVL3_LAT: the longest time into C3 and back, in microseconds. Above 1000: there is no C3.
    pub worst_c3_latency: u16,
    /// FLUSH_SIZE: how many strides to read to write back all caches, if `WBINVD` doesn't do it.
    pub flush_size: u16,
    /// FLUSH_STRIDE: the width of a cache line, in bytes, for the reads of FLUSH_SIZE.
    pub flush_stride: u16,
    /// DUTY_OFFSET: the place of the duty cycle's setting in the processor's control register P_CNT, in
    /// bits.
    pub duty_offset: u8,
    /// DUTY_WIDTH: how wide the duty cycle's setting is, in bits.
    pub duty_width: u8,
    /// DAY_ALRM: the clock's register of the alarm's day of the month. 0: there is none.
    pub day_alarm: u8,
    /// MON_ALRM: the clock's register of the alarm's month. 0: there is none.
    pub month_alarm: u8,
    /// CENTURY: the clock's register of the century. 0: there is none.
    pub century: u8,
    /// RESET_VALUE: the value that resets the machine if it is written to RESET_REG.
    pub reset_value: u8,
    /// IAPC_BOOT_ARCH: the devices of a PC (section 5.2.9.3).
    pub iapc_boot_arch: IaPcBootArchFlags,
    /// ARM_BOOT_ARCH: the way in which the firmware of an Arm machine is called (section 5.2.9.4).
    pub arm_boot_arch: ArmBootArchFlags,
    /// Flags (Fixed Feature Flags): what the fixed hardware does and needs.
    pub flags: FixedFeatureFlags,
    x_firmware_ctrl: u64,
    x_dsdt_address: u64,
}

impl PhysicalRecord for Fadt {
    const MIN_LENGTH: usize = 116;

    // In line, and each case out of line, since a call writes the record where it is wanted, and what joins two
    // records copies them.
    #[inline(always)]
    fn read(bytes: &[u8]) -> Self {
        // FADT Major Version.
        if bytes.len() >= BLOCKS_END && u8_in(bytes, 8) >= 2 { fadt_at(bytes) } else { Fadt::read_short(bytes) }
    }
}

impl Fadt {
    /// The record of a table that lacks extended blocks, out of line, since few do.
    #[inline(never)]
    fn read_short(table: &[u8]) -> Fadt {
        Fadt { header: SdtHeader::read(table), ..fadt_at(&whole(table)) }
    }
}

impl SdtTable for Fadt {
    const NAME: Signature = Signature::FADT;

    fn sdt_header(&self) -> &SdtHeader {
        &self.header
    }
}

impl Fadt {
    /// Preferred_PM_Profile: the machine's purpose (section 5.2.9).
    pub fn power_profile(&self) -> PowerProfile {
        PowerProfile::from(self.preferred_pm_profile)
    }

    /// X_FIRMWARE_CTRL or FIRMWARE_CTRL, the physical address of the FACS: the 64-bit field if it
    /// is there and not 0, else the 32-bit one (sections 5.2.9 and 5.2.10).
    ///
    /// Fails with `InvalidFacsAddress` if that is 0.
    pub fn facs_address(&self) -> AcpiResult<u64> {
        let refusal = AcpiError::InvalidFacsAddress;
        address_from(refusal, self.x_firmware_ctrl, self.firmware_ctrl)
    }

    /// X_DSDT or DSDT, the physical address of the DSDT: the 64-bit field if it is there and not
    /// 0, else the 32-bit one (sections 5.2.9 and 5.2.11.1).
    ///
    /// Fails with `InvalidDsdtAddress` if that is 0.
    pub fn dsdt_address(&self) -> AcpiResult<u64> {
        let refusal = AcpiError::InvalidDsdtAddress;
        address_from(refusal, self.x_dsdt_address, self.dsdt_address)
    }

    /// X_PM1a_EVT_BLK or PM1a_EVT_BLK: the status and enable registers of the fixed events (section 5.2.9):
    /// the extended block if its address isn't 0, else the ports, at address 0 too.
    ///
    /// A machine of reduced hardware has none, whatever is returned here: see
    /// `flags.system_is_hw_reduced_acpi()` first.
    ///
    /// Fails with `InvalidGenericAddress` a reserved code in the extended block, and a length of
    /// 32 bytes and more if the ports count.
    pub fn pm1a_event_block(&self) -> AcpiResult<GenericAddress> {
        self.registers.pm1a_event.fields().block()
    }

    /// X_PM1b_EVT_BLK or PM1b_EVT_BLK: the second block of event registers, or `None` if neither
    /// field has an address (section 5.2.9).
    ///
    /// Fails as `pm1a_event_block` does.
    pub fn pm1b_event_block(&self) -> AcpiResult<Option<GenericAddress>> {
        self.registers.pm1b_event.fields().optional_block()
    }

    /// X_PM1a_CNT_BLK or PM1a_CNT_BLK: the control registers of the fixed hardware (section 5.2.9): the
    /// extended block if its address isn't 0, else the ports, at address 0 too.
    ///
    /// A machine of reduced hardware has none, whatever is returned here: see
    /// `flags.system_is_hw_reduced_acpi()` first.
    ///
    /// Fails as `pm1a_event_block` does.
    pub fn pm1a_control_block(&self) -> AcpiResult<GenericAddress> {
        self.registers.pm1a_control.fields().block()
    }

    /// X_PM1b_CNT_BLK or PM1b_CNT_BLK: the second block of control registers, or `None` if
    /// neither field has an address (section 5.2.9).
    ///
    /// Fails as `pm1a_event_block` does.
    pub fn pm1b_control_block(&self) -> AcpiResult<Option<GenericAddress>> {
        self.registers.pm1b_control.fields().optional_block()
    }

    /// X_PM2_CNT_BLK or PM2_CNT_BLK: the second control register, or `None` if neither field
    /// has an address (section 5.2.9).
    ///
    /// Fails as `pm1a_event_block` does.
    pub fn pm2_control_block(&self) -> AcpiResult<Option<GenericAddress>> {
        self.registers.pm2_control.fields().optional_block()
    }

    /// X_PM_TMR_BLK or PM_TMR_BLK: the register of the power management timer, or `None` if PM_TMR_LEN isn't
    /// 4 or neither field has an address (sections 4.8.3.3 and 5.2.9).
    ///
    /// Fails for a reserved code in the extended block with `InvalidGenericAddress`.
    pub fn pm_timer_block(&self) -> AcpiResult<Option<GenericAddress>> {
        self.registers.pm_timer.fields().timer_block()
    }

    /// X_GPE0_BLK or GPE0_BLK: the registers of the first general purpose events, or `None` if
    /// neither field has an address (section 5.2.9).
    ///
    /// Fails as `pm1a_event_block` does: also a block that the 32-bit field places and that is 32
    /// bytes long or longer, as real chipsets have them, since eight bits a byte don't fit the
    /// width. `gpe0` returns those too.
    pub fn gpe0_block(&self) -> AcpiResult<Option<GenericAddress>> {
        self.registers.gpe0.fields().optional_block()
    }

    /// X_GPE1_BLK or GPE1_BLK: the registers of further general purpose events, or `None` if
    /// neither field has an address (section 5.2.9).
    ///
    /// Fails as `pm1a_event_block` does: also a block that the 32-bit field places and that is 32
    /// bytes long or longer, as real chipsets have them, since eight bits a byte don't fit the
    /// width. `gpe1` returns those too.
    pub fn gpe1_block(&self) -> AcpiResult<Option<GenericAddress>> {
        self.registers.gpe1.fields().optional_block()
    }

    /// RESET_REG: the register that resets the machine, if there is one by
    /// `flags.supports_system_reset_via_fadt()` (section 5.2.9). The flag isn't tested here.
    ///
    /// Fails for a reserved code with `InvalidGenericAddress`.
    pub fn reset_register(&self) -> AcpiResult<GenericAddress> {
        GenericAddress::read(&self.registers.reset)
    }

    /// SLEEP_CONTROL_REG: the register that puts a machine of reduced hardware to sleep, or `None`
    /// if the table has no field for it (section 5.2.9).
    ///
    /// Fails for a reserved code with `InvalidGenericAddress`.
    pub fn sleep_control_register(&self) -> AcpiResult<Option<GenericAddress>> {
        register_from(self.registers.sleep_control.as_ref())
    }

    /// SLEEP_STATUS_REG: the wake status of a hardware-reduced machine, or `None`
    /// if the table has no field for it (section 5.2.9).
    ///
    /// Fails for a reserved code with `InvalidGenericAddress`.
    pub fn sleep_status_register(&self) -> AcpiResult<Option<GenericAddress>> {
        register_from(self.registers.sleep_status.as_ref())
    }
}
