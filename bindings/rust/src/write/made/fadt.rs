// Made by scripts/erase of crates/acpi_writer/src/made/fadt.rt, where it is proved.
//! Made by scripts/written of specs/Fadt.antt.

use crate::table_writer::fields::Field;
use crate::table_writer::flags::flag_number;
use crate::write::fadt::parts::{
    address_or_zero, bytes_wide, feature_number, gpe_length, gpe_register, narrow, port_of, timer_length,
};
use crate::write::fadt::{FadtContents, FixedHardware};

/// Fixed Feature Flags: what the fixed hardware does and needs (section 5.2.9). The fields `hardware` and
/// `reset_register` of the contents give HW_REDUCED_ACPI, bit 20, and RESET_REG_SUP, bit 10.
#[derive(Clone, Copy, Debug)]
pub struct FixedFeatures {
    /// WBINVD (bit 0, section 5.2.9): whether `WBINVD` or an equivalent writes back and drops all caches, with memory
    /// coherent.
    pub supports_equivalent_to_wbinvd: bool,
    /// WBINVD_FLUSH (bit 1, section 5.2.9): whether `WBINVD` writes back all caches, with memory coherent, but may
    /// leave them filled.
    pub wbinvd_flushes_all_caches: bool,
    /// PROC_C1 (bit 2, section 5.2.9): whether each processor has the power state C1.
    pub all_procs_support_c1_power_state: bool,
    /// P_LVL2_UP (bit 3, section 5.2.9): whether the power state C2 works with several processors too, and not with one
    /// alone.
    pub c2_configured_for_mp_system: bool,
    /// PWR_BUTTON (bit 4, section 5.2.9): whether the power button is handled by a control method or is absent; else it
    /// is handled by fixed registers.
    pub power_button_is_control_method: bool,
    /// SLP_BUTTON (bit 5, section 5.2.9): whether the sleep button is handled by a control method or is absent; else it
    /// is handled by fixed registers.
    pub sleep_button_is_control_method: bool,
    /// FIX_RTC (bit 6, section 5.2.9): whether a wake by the real time clock shows in no fixed register.
    pub no_rtc_wake_in_fixed_register_space: bool,
    /// RTC_S4 (bit 7, section 5.2.9): whether the real time clock can wake the machine from S4.
    pub rtc_wakes_system_from_s4: bool,
    /// TMR_VAL_EXT (bit 8, section 5.2.9): whether the power management timer counts 32 bits; else it counts 24.
    pub pm_timer_is_32_bit: bool,
    /// DCK_CAP (bit 9, section 5.2.9): whether the machine can be docked.
    pub supports_docking: bool,
    /// SEALED_CASE (bit 11, section 5.2.9): whether the machine cannot be extended inside and its case is sealed.
    pub case_is_sealed: bool,
    /// HEADLESS (bit 12, section 5.2.9): whether the machine cannot detect if a screen, keyboard or mouse is there.
    pub system_is_headless: bool,
    /// CPU_SW_SLP (bit 13, section 5.2.9): whether a processor instruction has to follow a write of the sleep type.
    pub use_instr_after_write_to_slp_typx: bool,
    /// PCI_EXP_WAK (bit 14, section 5.2.9): whether the PM1 registers have the bits for a wake by PCI Express.
    pub supports_pciexp_wake_in_pm1: bool,
    /// USE_PLATFORM_CLOCK (bit 15, section 5.2.9): whether timers should be taken from the power management timer or
    /// the HPET.
    pub use_pm_or_hpet_for_monotonically_decreasing_timers: bool,
    /// S4_RTC_STS_VALID (bit 16, section 5.2.9): whether the clock's status is right after a wake from S4.
    pub rtc_sts_is_valid_after_wakeup_from_s4: bool,
    /// REMOTE_POWER_ON_CAPABLE (bit 17, section 5.2.9): whether wake events may stay armed when the machine enters S5.
    pub ospm_may_leave_gpe_wake_events_armed_before_s5: bool,
    /// FORCE_APIC_CLUSTER_MODEL (bit 18, section 5.2.9): whether local APICs have to use the cluster model in logical
    /// mode.
    pub lapics_must_use_cluster_model_for_logical_mode: bool,
    /// FORCE_APIC_PHYSICAL_DESTINATION_MODE (bit 19, section 5.2.9): whether local xAPICs have to use the physical
    /// destination mode.
    pub local_xapics_must_use_physical_destination_mode: bool,
    /// LOW_POWER_S0_IDLE_CAPABLE (bit 21, section 5.2.9): whether S0 saves as much power as S3, so that S3 is of no
    /// use.
    pub no_benefit_to_s3: bool,
}

impl FixedFeatures {
    /// No flag.
    pub const NONE: FixedFeatures = FixedFeatures {
        supports_equivalent_to_wbinvd: false,
        wbinvd_flushes_all_caches: false,
        all_procs_support_c1_power_state: false,
        c2_configured_for_mp_system: false,
        power_button_is_control_method: false,
        sleep_button_is_control_method: false,
        no_rtc_wake_in_fixed_register_space: false,
        rtc_wakes_system_from_s4: false,
        pm_timer_is_32_bit: false,
        supports_docking: false,
        case_is_sealed: false,
        system_is_headless: false,
        use_instr_after_write_to_slp_typx: false,
        supports_pciexp_wake_in_pm1: false,
        use_pm_or_hpet_for_monotonically_decreasing_timers: false,
        rtc_sts_is_valid_after_wakeup_from_s4: false,
        ospm_may_leave_gpe_wake_events_armed_before_s5: false,
        lapics_must_use_cluster_model_for_logical_mode: false,
        local_xapics_must_use_physical_destination_mode: false,
        no_benefit_to_s3: false,
    };
}

/// IAPC_BOOT_ARCH, the IA-PC Boot Architecture Flags: the devices of a PC (section 5.2.9.3).
#[derive(Clone, Copy, Debug)]
pub struct PcBootFeatures {
    /// LEGACY_DEVICES (bit 0, section 5.2.9.3): whether the machine has devices on LPC or ISA that a user can see.
    pub legacy_devices_are_accessible: bool,
    /// 8042 (bit 1, section 5.2.9.3): whether the motherboard has a keyboard controller at the ports 0x60 and 0x64.
    pub motherboard_implements_8042: bool,
    /// VGA Not Present (bit 2, section 5.2.9.3): whether VGA hardware must not be probed blindly.
    pub dont_probe_vga: bool,
    /// MSI Not Supported (bit 3, section 5.2.9.3): whether message signalled interrupts must not be enabled.
    pub dont_enable_msi: bool,
    /// PCIe ASPM Controls (bit 4, section 5.2.9.3): whether power management of PCI Express links must not be enabled.
    pub dont_enable_pcie_aspm: bool,
    /// CMOS RTC Not Present (bit 5, section 5.2.9.3): whether the clock must be used through its control method, and
    /// not by its ports.
    pub use_time_and_alarm_namespace_for_rtc: bool,
}

impl PcBootFeatures {
    /// No flag.
    pub const NONE: PcBootFeatures = PcBootFeatures {
        legacy_devices_are_accessible: false,
        motherboard_implements_8042: false,
        dont_probe_vga: false,
        dont_enable_msi: false,
        dont_enable_pcie_aspm: false,
        use_time_and_alarm_namespace_for_rtc: false,
    };
}

/// ARM_BOOT_ARCH, the Arm Boot Architecture Flags: the way in which the firmware of an Arm machine is called (section
/// 5.2.9.4).
#[derive(Clone, Copy, Debug)]
pub struct ArmBootFeatures {
    /// PSCI_COMPLIANT (bit 0, section 5.2.9.4): whether the machine follows PSCI.
    pub implements_psci: bool,
    /// PSCI_USE_HVC (bit 1, section 5.2.9.4): whether PSCI is called by HVC in place of SMC.
    pub use_hvc_as_psci_conduit: bool,
}

impl ArmBootFeatures {
    /// No flag.
    pub const NONE: ArmBootFeatures = ArmBootFeatures { implements_psci: false, use_hvc_as_psci_conduit: false };
}

/// Fixed Feature Flags: what the fixed hardware does and needs (section 5.2.9). The fields `hardware` and
/// `reset_register` of the contents give HW_REDUCED_ACPI, bit 20, and RESET_REG_SUP, bit 10.
pub(crate) fn flags_with(f: &FixedFeatures, reset: bool, reduced: bool) -> [bool; 22] {
    [
        // WBINVD
        f.supports_equivalent_to_wbinvd,
        // WBINVD_FLUSH
        f.wbinvd_flushes_all_caches,
        // PROC_C1
        f.all_procs_support_c1_power_state,
        // P_LVL2_UP
        f.c2_configured_for_mp_system,
        // PWR_BUTTON
        f.power_button_is_control_method,
        // SLP_BUTTON
        f.sleep_button_is_control_method,
        // FIX_RTC
        f.no_rtc_wake_in_fixed_register_space,
        // RTC_S4
        f.rtc_wakes_system_from_s4,
        // TMR_VAL_EXT
        f.pm_timer_is_32_bit,
        // DCK_CAP
        f.supports_docking,
        // RESET_REG_SUP
        reset,
        // SEALED_CASE
        f.case_is_sealed,
        // HEADLESS
        f.system_is_headless,
        // CPU_SW_SLP
        f.use_instr_after_write_to_slp_typx,
        // PCI_EXP_WAK
        f.supports_pciexp_wake_in_pm1,
        // USE_PLATFORM_CLOCK
        f.use_pm_or_hpet_for_monotonically_decreasing_timers,
        // S4_RTC_STS_VALID
        f.rtc_sts_is_valid_after_wakeup_from_s4,
        // REMOTE_POWER_ON_CAPABLE
        f.ospm_may_leave_gpe_wake_events_armed_before_s5,
        // FORCE_APIC_CLUSTER_MODEL
        f.lapics_must_use_cluster_model_for_logical_mode,
        // FORCE_APIC_PHYSICAL_DESTINATION_MODE
        f.local_xapics_must_use_physical_destination_mode,
        // HW_REDUCED_ACPI
        reduced,
        // LOW_POWER_S0_IDLE_CAPABLE
        f.no_benefit_to_s3,
    ]
}

/// IAPC_BOOT_ARCH, the IA-PC Boot Architecture Flags: the devices of a PC (section 5.2.9.3).
pub(crate) fn pc_flags(p: &PcBootFeatures) -> [bool; 6] {
    [
        // LEGACY_DEVICES
        p.legacy_devices_are_accessible,
        // 8042
        p.motherboard_implements_8042,
        // VGA Not Present
        p.dont_probe_vga,
        // MSI Not Supported
        p.dont_enable_msi,
        // PCIe ASPM Controls
        p.dont_enable_pcie_aspm,
        // CMOS RTC Not Present
        p.use_time_and_alarm_namespace_for_rtc,
    ]
}

/// ARM_BOOT_ARCH, the Arm Boot Architecture Flags: the way in which the firmware of an Arm machine is called (section
/// 5.2.9.4).
pub(crate) fn arm_flags(a: &ArmBootFeatures) -> [bool; 2] {
    [
        // PSCI_COMPLIANT
        a.implements_psci,
        // PSCI_USE_HVC
        a.use_hvc_as_psci_conduit,
    ]
}

/// The fields before RESET_REG.
pub(crate) fn front_fields(c: &FadtContents, h: &FixedHardware) -> [Field; 38] {
    [
        // 36: FIRMWARE_CTRL, 40: DSDT
        Field::U32(narrow(address_or_zero(c.facs))),
        Field::U32(narrow(c.dsdt)),
        // 44: Reserved, 45: Preferred_PM_Profile
        Field::Zeros(1),
        Field::U8(c.power_profile.code()),
        // 46: SCI_INT, 48: SMI_CMD
        Field::U16(c.sci_interrupt),
        Field::U32(h.smi_cmd_port),
        // 52: ACPI_ENABLE, 53: ACPI_DISABLE
        Field::U8(h.acpi_enable),
        Field::U8(h.acpi_disable),
        // 54: S4BIOS_REQ, 55: PSTATE_CNT
        Field::U8(h.s4bios_req),
        Field::U8(h.pstate_control),
        // 56: PM1a_EVT_BLK, 60: PM1b_EVT_BLK
        Field::U32(port_of(Some(h.pm1a_event))),
        Field::U32(port_of(h.pm1b_event)),
        // 64: PM1a_CNT_BLK, 68: PM1b_CNT_BLK
        Field::U32(port_of(Some(h.pm1a_control))),
        Field::U32(port_of(h.pm1b_control)),
        // 72: PM2_CNT_BLK, 76: PM_TMR_BLK
        Field::U32(port_of(h.pm2_control)),
        Field::U32(port_of(h.pm_timer)),
        // 80: GPE0_BLK, 84: GPE1_BLK
        Field::U32(port_of(gpe_register(h.gpe0))),
        Field::U32(port_of(gpe_register(h.gpe1))),
        // 88: PM1_EVT_LEN, 89: PM1_CNT_LEN
        Field::U8(bytes_wide(Some(h.pm1a_event))),
        Field::U8(bytes_wide(Some(h.pm1a_control))),
        // 90: PM2_CNT_LEN, 91: PM_TMR_LEN
        Field::U8(bytes_wide(h.pm2_control)),
        Field::U8(timer_length(h.pm_timer)),
        // 92: GPE0_BLK_LEN, 93: GPE1_BLK_LEN
        Field::U8(gpe_length(h.gpe0)),
        Field::U8(gpe_length(h.gpe1)),
        // 94: GPE1_BASE, 95: CST_CNT
        Field::U8(h.gpe1_base),
        Field::U8(h.c_state_control),
        // 96: P_LVL2_LAT, 98: P_LVL3_LAT
        Field::U16(c.legacy.worst_c2_latency),
        Field::U16(c.legacy.worst_c3_latency),
        // 100: FLUSH_SIZE, 102: FLUSH_STRIDE
        Field::U16(c.legacy.flush_size),
        Field::U16(c.legacy.flush_stride),
        // 104: DUTY_OFFSET, 105: DUTY_WIDTH
        Field::U8(c.legacy.duty_offset),
        Field::U8(c.legacy.duty_width),
        // 106: DAY_ALRM, 107: MON_ALRM
        Field::U8(c.legacy.day_alarm),
        Field::U8(c.legacy.month_alarm),
        // 108: CENTURY, 109: IAPC_BOOT_ARCH
        Field::U8(c.legacy.century),
        Field::U16(flag_number(&pc_flags(&c.pc_boot)) as u16),
        // 111: Reserved, 112: Flags
        Field::Zeros(1),
        Field::U32(feature_number(c)),
    ]
}

/// The fields between RESET_REG, at 116, and the registers.
pub(crate) fn wide_fields(c: &FadtContents) -> [Field; 5] {
    [
        // 128: RESET_VALUE, 129: ARM_BOOT_ARCH
        Field::U8(c.reset_value),
        Field::U16(flag_number(&arm_flags(&c.arm_boot)) as u16),
        // 131: FADT Minor Version
        Field::U8(4),
        // 132: X_FIRMWARE_CTRL, 140: X_DSDT
        Field::U64(address_or_zero(c.facs)),
        Field::U64(c.dsdt),
    ]
}
