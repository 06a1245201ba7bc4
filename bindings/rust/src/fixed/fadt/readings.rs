// Made by scripts/erase of crates/acpi_fixed/src/fadt/readings.rt, where it is proved.
//! Made by scripts/readings: records, as their definitions in specs/ read them from bytes.

use super::{ArmBootArchFlags, Fadt, FixedFeatureFlags, IaPcBootArchFlags, SdtHeader};
use crate::base::PhysicalRecord;
use crate::base::bytes::{u8_in, u16_in, u32_in};
use crate::fixed::fadt::registers::{extended_number, registers_at};

pub(crate) fn fadt_at(bytes: &[u8]) -> Fadt {
    Fadt {
        header: SdtHeader::read(bytes),
        firmware_ctrl: u32_in(bytes, 36),       // FIRMWARE_CTRL
        dsdt_address: u32_in(bytes, 40),        // DSDT
        preferred_pm_profile: u8_in(bytes, 45), // Preferred_PM_Profile
        sci_interrupt: u16_in(bytes, 46),       // SCI_INT
        smi_cmd_port: u32_in(bytes, 48),        // SMI_CMD
        acpi_enable: u8_in(bytes, 52),          // ACPI_ENABLE
        acpi_disable: u8_in(bytes, 53),         // ACPI_DISABLE
        s4bios_req: u8_in(bytes, 54),           // S4BIOS_REQ
        pstate_control: u8_in(bytes, 55),       // PSTATE_CNT
        registers: registers_at(bytes),
        gpe1_base: u8_in(bytes, 94),                           // GPE1_BASE
        c_state_control: u8_in(bytes, 95),                     // CST_CNT
        worst_c2_latency: u16_in(bytes, 96),                   // P_LVL2_LAT
        worst_c3_latency: u16_in(bytes, 98),                   // P_LVL3_LAT
        flush_size: u16_in(bytes, 100),                        // FLUSH_SIZE
        flush_stride: u16_in(bytes, 102),                      // FLUSH_STRIDE
        duty_offset: u8_in(bytes, 104),                        // DUTY_OFFSET
        duty_width: u8_in(bytes, 105),                         // DUTY_WIDTH
        day_alarm: u8_in(bytes, 106),                          // DAY_ALRM
        month_alarm: u8_in(bytes, 107),                        // MON_ALRM
        century: u8_in(bytes, 108),                            // CENTURY
        iapc_boot_arch: IaPcBootArchFlags(u16_in(bytes, 109)), // IAPC_BOOT_ARCH
        flags: FixedFeatureFlags(u32_in(bytes, 112)),          // Flags (Fixed Feature Flags)
        reset_value: u8_in(bytes, 128),                        // RESET_VALUE
        arm_boot_arch: ArmBootArchFlags(u16_in(bytes, 129)),   // ARM_BOOT_ARCH
        x_firmware_ctrl: extended_number(bytes, 132),          // X_FIRMWARE_CTRL
        x_dsdt_address: extended_number(bytes, 140),           // X_DSDT
    }
}
