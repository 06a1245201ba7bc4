// Made by scripts/erase of crates/acpi_fixed/src/fadt/view.rt, where it is proved.
//! A FADT whose fields are read when they are requested.

use super::registers::{
    BlockFields, BlockPlace, address_from, base_beside, extended_number_in, raw_in, reach_in, register_from,
};
use super::{ArmBootArchFlags, Fadt, FixedFeatureFlags, GpeBlock, IaPcBootArchFlags, PowerProfile, offsets};
use crate::base::address::GenericAddress;
use crate::base::bytes::{field, filled, u8_in, u16_in, u32_in};
use crate::base::table::ValidTable;
use crate::base::{AcpiError, AcpiResult, Lender, PhysicalMapping, PhysicalRecord};

/// The record of a mapping that reads none: its bytes are mapped, and that is all.
#[derive(Clone, Copy, Debug)]
struct Unread;

impl PhysicalRecord for Unread {
    const MIN_LENGTH: usize = 116;

    #[inline(always)]
    fn read(_bytes: &[u8]) -> Self {
        Unread
    }
}

/// A Fixed ACPI Description Table in its mapped bytes (section 5.2.9), which stay mapped until this is dropped. A
/// call reads from them, and returns the value or the error of the call or the field of that name of
/// `Fadt` does.
#[derive(Debug)]
pub struct FadtView<'h, H: Lender> {
    mapping: PhysicalMapping<'h, H, Unread>,
    reach: usize,
}

impl<'h, H: Lender> FadtView<'h, H> {
    /// The view of a table that is valid for `Fadt`: its bytes stay mapped.
    ///
    /// # Panics
    ///
    /// Functions of the view panic if the table is shorter than 116 bytes.
    pub fn new(table: ValidTable<'h, H>) -> Self {
        let mapping: PhysicalMapping<'h, H, Unread> = table.mapping();
        let reach = reach_in(mapping.bytes());
        FadtView { mapping, reach }
    }

    /// The physical address of the table.
    pub fn physical_start(&self) -> u64 {
        self.mapping.physical_start()
    }

    /// The bytes of the table.
    pub fn bytes(&self) -> &[u8] {
        self.mapping.bytes()
    }

    /// The whole record, for a caller that uses most of it.
    pub fn record(&self) -> Fadt {
        Fadt::read(self.bytes())
    }

    /// What the table has of a block of registers.
    #[inline(always)]
    fn fields(&self, place: BlockPlace) -> BlockFields<'_> {
        BlockFields::read(self.bytes(), self.reach, place)
    }

    /// Preferred_PM_Profile: the machine's purpose.
    pub fn power_profile(&self) -> PowerProfile {
        PowerProfile::from(u8_in(self.bytes(), offsets::PREFERRED_PM_PROFILE))
    }

    /// SCI_INT: the interrupt that carries the machine's events.
    pub fn sci_interrupt(&self) -> u16 {
        u16_in(self.bytes(), offsets::SCI_INT)
    }

    /// SMI_CMD: the port that commands to the firmware are written to.
    pub fn smi_cmd_port(&self) -> u32 {
        u32_in(self.bytes(), offsets::SMI_CMD)
    }

    /// ACPI_ENABLE: the command that takes the hardware registers from the firmware.
    pub fn acpi_enable(&self) -> u8 {
        u8_in(self.bytes(), offsets::ACPI_ENABLE)
    }

    /// ACPI_DISABLE: the command that returns the hardware registers to the firmware.
    pub fn acpi_disable(&self) -> u8 {
        u8_in(self.bytes(), offsets::ACPI_DISABLE)
    }

    /// IAPC_BOOT_ARCH: the devices of a PC.
    pub fn iapc_boot_arch(&self) -> IaPcBootArchFlags {
        IaPcBootArchFlags(u16_in(self.bytes(), offsets::IAPC_BOOT_ARCH))
    }

    /// ARM_BOOT_ARCH: the way in which the firmware of an Arm machine is called.
    pub fn arm_boot_arch(&self) -> ArmBootArchFlags {
        ArmBootArchFlags(field(self.bytes(), offsets::ARM_BOOT_ARCH, 2) as u16)
    }

    /// Flags (Fixed Feature Flags): what the fixed hardware does and needs.
    pub fn flags(&self) -> FixedFeatureFlags {
        FixedFeatureFlags(u32_in(self.bytes(), offsets::FLAGS))
    }

    /// X_FIRMWARE_CTRL or FIRMWARE_CTRL: the physical address of the FACS.
    #[inline(always)]
    pub fn facs_address(&self) -> AcpiResult<u64> {
        let wide = extended_number_in(self.bytes(), self.reach, offsets::X_FIRMWARE_CTRL);
        let narrow = u32_in(self.bytes(), offsets::FIRMWARE_CTRL);
        address_from(AcpiError::InvalidFacsAddress, wide, narrow)
    }

    /// X_DSDT or DSDT: the physical address of the DSDT.
    #[inline(always)]
    pub fn dsdt_address(&self) -> AcpiResult<u64> {
        let wide = extended_number_in(self.bytes(), self.reach, offsets::X_DSDT);
        let narrow = u32_in(self.bytes(), offsets::DSDT);
        address_from(AcpiError::InvalidDsdtAddress, wide, narrow)
    }

    /// X_PM1a_EVT_BLK or PM1a_EVT_BLK: the registers of the fixed events.
    #[inline(always)]
    pub fn pm1a_event_block(&self) -> AcpiResult<GenericAddress> {
        self.fields(offsets::PM1A_EVENT).block()
    }

    /// X_PM1b_EVT_BLK or PM1b_EVT_BLK: the second block of event registers.
    #[inline(always)]
    pub fn pm1b_event_block(&self) -> AcpiResult<Option<GenericAddress>> {
        self.fields(offsets::PM1B_EVENT).optional_block()
    }

    /// X_PM1a_CNT_BLK or PM1a_CNT_BLK: the control registers of the fixed hardware.
    #[inline(always)]
    pub fn pm1a_control_block(&self) -> AcpiResult<GenericAddress> {
        self.fields(offsets::PM1A_CONTROL).block()
    }

    /// X_PM1b_CNT_BLK or PM1b_CNT_BLK: the second block of control registers.
    #[inline(always)]
    pub fn pm1b_control_block(&self) -> AcpiResult<Option<GenericAddress>> {
        self.fields(offsets::PM1B_CONTROL).optional_block()
    }

    /// X_PM2_CNT_BLK or PM2_CNT_BLK: the second control register.
    #[inline(always)]
    pub fn pm2_control_block(&self) -> AcpiResult<Option<GenericAddress>> {
        self.fields(offsets::PM2_CONTROL).optional_block()
    }

    /// X_PM_TMR_BLK or PM_TMR_BLK: the register of the power management timer.
    #[inline(always)]
    pub fn pm_timer_block(&self) -> AcpiResult<Option<GenericAddress>> {
        self.fields(offsets::PM_TIMER).timer_block()
    }

    /// X_GPE0_BLK or GPE0_BLK: the registers of the first general purpose events.
    #[inline(always)]
    pub fn gpe0_block(&self) -> AcpiResult<Option<GenericAddress>> {
        self.fields(offsets::GPE0).optional_block()
    }

    /// X_GPE1_BLK or GPE1_BLK: the registers of further general purpose events.
    #[inline(always)]
    pub fn gpe1_block(&self) -> AcpiResult<Option<GenericAddress>> {
        self.fields(offsets::GPE1).optional_block()
    }

    /// X_GPE0_BLK or GPE0_BLK with GPE0_BLK_LEN: a block of any length.
    pub fn gpe0(&self) -> AcpiResult<Option<GpeBlock>> {
        self.fields(offsets::GPE0).gpe()
    }

    /// X_GPE1_BLK or GPE1_BLK with GPE1_BLK_LEN: a block of any length.
    pub fn gpe1(&self) -> AcpiResult<Option<GpeBlock>> {
        self.fields(offsets::GPE1).gpe()
    }

    /// GPE1_BASE: the number of the first event of `gpe1`.
    pub fn gpe1_base(&self) -> Option<u8> {
        base_beside(u8_in(self.bytes(), offsets::GPE1_BASE), self.gpe1())
    }

    /// RESET_REG: the register that resets the machine.
    #[inline(always)]
    pub fn reset_register(&self) -> AcpiResult<GenericAddress> {
        let table = self.bytes();
        match raw_in(table, table.len(), offsets::RESET_REG) {
            Some(raw) => GenericAddress::read(raw),
            None => GenericAddress::from_raw(filled(table, offsets::RESET_REG)),
        }
    }

    /// RESET_VALUE: the value that resets the machine if it is written to RESET_REG.
    pub fn reset_value(&self) -> u8 {
        field(self.bytes(), offsets::RESET_VALUE, 1) as u8
    }

    /// SLEEP_CONTROL_REG: the register that puts a machine of reduced hardware to sleep.
    pub fn sleep_control_register(&self) -> AcpiResult<Option<GenericAddress>> {
        register_from(raw_in(self.bytes(), self.reach, offsets::SLEEP_CONTROL_REG))
    }

    /// SLEEP_STATUS_REG: the wake status of a machine of reduced hardware.
    pub fn sleep_status_register(&self) -> AcpiResult<Option<GenericAddress>> {
        register_from(raw_in(self.bytes(), self.reach, offsets::SLEEP_STATUS_REG))
    }
}
