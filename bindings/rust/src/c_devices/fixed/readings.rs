// Made by scripts/erase of crates/acpi_c_devices/src/fixed/readings.rt, where it is proved.
//! Made by scripts/readings: records, as their definitions in specs/ read them from bytes.

use super::{gpe_record, hypervisor_id_in};
use crate::base::bytes::{field, u8_in, u16_in, u32_in};
use crate::c_devices::devices::{optional_register, required_register};
use crate::c_devices::fixed::records::FixedHardware;
use crate::c_lib::regions::Mapped;
use crate::fixed::fadt::FadtView;

/// The fixed hardware that a FADT describes (section 5.2.9): fields that no call decodes are read as they are.
pub(crate) fn fixed_record(fadt: &FadtView<'_, Mapped<'_>>) -> FixedHardware {
    let bytes = fadt.bytes();
    FixedHardware {
        facs_address: fadt.facs_address().unwrap_or(0),
        dsdt_address: fadt.dsdt_address().unwrap_or(0),
        pm1a_event: required_register(fadt.pm1a_event_block()),
        pm1b_event: optional_register(fadt.pm1b_event_block()),
        pm1a_control: required_register(fadt.pm1a_control_block()),
        pm1b_control: optional_register(fadt.pm1b_control_block()),
        pm2_control: optional_register(fadt.pm2_control_block()),
        pm_timer: optional_register(fadt.pm_timer_block()),
        gpe0: optional_register(fadt.gpe0_block()),
        gpe1: optional_register(fadt.gpe1_block()),
        reset: required_register(fadt.reset_register()),
        sleep_control: optional_register(fadt.sleep_control_register()),
        sleep_status: optional_register(fadt.sleep_status_register()),
        gpe0_block: gpe_record(fadt.gpe0()),
        gpe1_block: gpe_record(fadt.gpe1()),
        smi_command: fadt.smi_cmd_port(),
        flags: u32_in(bytes, 112), // Flags (Fixed Feature Flags)
        sci_interrupt: fadt.sci_interrupt(),
        x86_boot_flags: u16_in(bytes, 109),          // IAPC_BOOT_ARCH
        arm_boot_flags: field(bytes, 129, 2) as u16, // ARM_BOOT_ARCH
        c2_latency: u16_in(bytes, 96),               // P_LVL2_LAT
        c3_latency: u16_in(bytes, 98),               // P_LVL3_LAT
        flush_size: u16_in(bytes, 100),              // FLUSH_SIZE
        flush_stride: u16_in(bytes, 102),            // FLUSH_STRIDE
        power_profile: fadt.power_profile().code(),
        acpi_enable: fadt.acpi_enable(),
        acpi_disable: fadt.acpi_disable(),
        s4bios_request: u8_in(bytes, 54),  // S4BIOS_REQ
        pstate_control: u8_in(bytes, 55),  // PSTATE_CNT
        c_state_control: u8_in(bytes, 95), // CST_CNT
        gpe1_base: u8_in(bytes, 94),       // GPE1_BASE
        duty_offset: u8_in(bytes, 104),    // DUTY_OFFSET
        duty_width: u8_in(bytes, 105),     // DUTY_WIDTH
        day_alarm: u8_in(bytes, 106),      // DAY_ALRM
        month_alarm: u8_in(bytes, 107),    // MON_ALRM
        century: u8_in(bytes, 108),        // CENTURY
        reset_value: fadt.reset_value(),
        revision: u8_in(bytes, 8),                  // Revision: the FADT Major Version
        minor_revision: field(bytes, 131, 1) as u8, // FADT Minor Version
        hypervisor_id: hypervisor_id_in(bytes),
        reserved: [0; 3],
    }
}
