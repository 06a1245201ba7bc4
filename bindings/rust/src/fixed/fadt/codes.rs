// Made by scripts/erase of crates/acpi_fixed/src/fadt/codes.rt, where it is proved.
//! Made by scripts/codes: codes of values, values of codes, and flags, as definitions in specs/ have them.

use crate::bytes::bytes::has_bit;
use crate::fixed::fadt::{ArmBootArchFlags, FixedFeatureFlags, IaPcBootArchFlags, PowerProfile};

impl From<u8> for PowerProfile {
    /// The profile of a code of Preferred_PM_Profile.
    fn from(code: u8) -> PowerProfile {
        match code {
            0 => PowerProfile::Unspecified,
            1 => PowerProfile::Desktop,
            2 => PowerProfile::Mobile,
            3 => PowerProfile::Workstation,
            4 => PowerProfile::EnterpriseServer,
            5 => PowerProfile::SohoServer,
            6 => PowerProfile::AppliancePc,
            7 => PowerProfile::PerformanceServer,
            8 => PowerProfile::Tablet,
            other => PowerProfile::Reserved(other),
        }
    }
}

impl FixedFeatureFlags {
    /// WBINVD (bit 0, section 5.2.9): whether `WBINVD` or an equivalent writes back and drops all caches, with memory
    /// coherent.
    pub fn supports_equivalent_to_wbinvd(&self) -> bool {
        has_bit(self.0 as u64, 0)
    }

    /// WBINVD_FLUSH (bit 1, section 5.2.9): whether `WBINVD` writes back all caches, with memory coherent, but may
    /// leave them filled.
    pub fn wbinvd_flushes_all_caches(&self) -> bool {
        has_bit(self.0 as u64, 1)
    }

    /// PROC_C1 (bit 2, section 5.2.9): whether each processor has the power state C1.
    pub fn all_procs_support_c1_power_state(&self) -> bool {
        has_bit(self.0 as u64, 2)
    }

    /// P_LVL2_UP (bit 3, section 5.2.9): whether the power state C2 works with several processors too, and not with one
    /// alone.
    pub fn c2_configured_for_mp_system(&self) -> bool {
        has_bit(self.0 as u64, 3)
    }

    /// PWR_BUTTON (bit 4, section 5.2.9): whether the power button is handled by a control method or is absent; else it
    /// is handled by fixed registers.
    pub fn power_button_is_control_method(&self) -> bool {
        has_bit(self.0 as u64, 4)
    }

    /// SLP_BUTTON (bit 5, section 5.2.9): whether the sleep button is handled by a control method or is absent; else it
    /// is handled by fixed registers.
    pub fn sleep_button_is_control_method(&self) -> bool {
        has_bit(self.0 as u64, 5)
    }

    /// FIX_RTC (bit 6, section 5.2.9): whether a wake by the real time clock shows in no fixed register.
    pub fn no_rtc_wake_in_fixed_register_space(&self) -> bool {
        has_bit(self.0 as u64, 6)
    }

    /// RTC_S4 (bit 7, section 5.2.9): whether the real time clock can wake the machine from S4.
    pub fn rtc_wakes_system_from_s4(&self) -> bool {
        has_bit(self.0 as u64, 7)
    }

    /// TMR_VAL_EXT (bit 8, section 5.2.9): whether the power management timer counts 32 bits; else it counts 24.
    pub fn pm_timer_is_32_bit(&self) -> bool {
        has_bit(self.0 as u64, 8)
    }

    /// DCK_CAP (bit 9, section 5.2.9): whether the machine can be docked.
    pub fn supports_docking(&self) -> bool {
        has_bit(self.0 as u64, 9)
    }

    /// RESET_REG_SUP (bit 10, section 5.2.9): whether a write of `reset_value` to the reset register resets the
    /// machine.
    pub fn supports_system_reset_via_fadt(&self) -> bool {
        has_bit(self.0 as u64, 10)
    }

    /// SEALED_CASE (bit 11, section 5.2.9): whether the machine cannot be extended inside and its case is sealed.
    pub fn case_is_sealed(&self) -> bool {
        has_bit(self.0 as u64, 11)
    }

    /// HEADLESS (bit 12, section 5.2.9): whether the machine cannot detect if a screen, keyboard or mouse is there.
    pub fn system_is_headless(&self) -> bool {
        has_bit(self.0 as u64, 12)
    }

    /// CPU_SW_SLP (bit 13, section 5.2.9): whether a processor instruction has to follow a write of the sleep type.
    pub fn use_instr_after_write_to_slp_typx(&self) -> bool {
        has_bit(self.0 as u64, 13)
    }

    /// PCI_EXP_WAK (bit 14, section 5.2.9): whether the PM1 registers have the bits for a wake by PCI Express.
    pub fn supports_pciexp_wake_in_pm1(&self) -> bool {
        has_bit(self.0 as u64, 14)
    }

    /// USE_PLATFORM_CLOCK (bit 15, section 5.2.9): whether timers should be taken from the power management timer or
    /// the HPET.
    pub fn use_pm_or_hpet_for_monotonically_decreasing_timers(&self) -> bool {
        has_bit(self.0 as u64, 15)
    }

    /// S4_RTC_STS_VALID (bit 16, section 5.2.9): whether the clock's status is right after a wake from S4.
    pub fn rtc_sts_is_valid_after_wakeup_from_s4(&self) -> bool {
        has_bit(self.0 as u64, 16)
    }

    /// REMOTE_POWER_ON_CAPABLE (bit 17, section 5.2.9): whether wake events may stay armed when the machine enters S5.
    pub fn ospm_may_leave_gpe_wake_events_armed_before_s5(&self) -> bool {
        has_bit(self.0 as u64, 17)
    }

    /// FORCE_APIC_CLUSTER_MODEL (bit 18, section 5.2.9): whether local APICs have to use the cluster model in logical
    /// mode.
    pub fn lapics_must_use_cluster_model_for_logical_mode(&self) -> bool {
        has_bit(self.0 as u64, 18)
    }

    /// FORCE_APIC_PHYSICAL_DESTINATION_MODE (bit 19, section 5.2.9): whether local xAPICs have to use the physical
    /// destination mode.
    pub fn local_xapics_must_use_physical_destination_mode(&self) -> bool {
        has_bit(self.0 as u64, 19)
    }

    /// HW_REDUCED_ACPI (bit 20, section 5.2.9): whether the machine has reduced hardware, with software in place of the
    /// fixed features.
    pub fn system_is_hw_reduced_acpi(&self) -> bool {
        has_bit(self.0 as u64, 20)
    }

    /// LOW_POWER_S0_IDLE_CAPABLE (bit 21, section 5.2.9): whether S0 saves as much power as S3, so that S3 is of no
    /// use.
    pub fn no_benefit_to_s3(&self) -> bool {
        has_bit(self.0 as u64, 21)
    }
}

impl IaPcBootArchFlags {
    /// LEGACY_DEVICES (bit 0, section 5.2.9.3): whether the machine has devices on LPC or ISA that a user can see.
    pub fn legacy_devices_are_accessible(&self) -> bool {
        has_bit(self.0 as u64, 0)
    }

    /// 8042 (bit 1, section 5.2.9.3): whether the motherboard has a keyboard controller at the ports 0x60 and 0x64.
    pub fn motherboard_implements_8042(&self) -> bool {
        has_bit(self.0 as u64, 1)
    }

    /// VGA Not Present (bit 2, section 5.2.9.3): whether VGA hardware must not be probed blindly.
    pub fn dont_probe_vga(&self) -> bool {
        has_bit(self.0 as u64, 2)
    }

    /// MSI Not Supported (bit 3, section 5.2.9.3): whether message signalled interrupts must not be enabled.
    pub fn dont_enable_msi(&self) -> bool {
        has_bit(self.0 as u64, 3)
    }

    /// PCIe ASPM Controls (bit 4, section 5.2.9.3): whether power management of PCI Express links must not be enabled.
    pub fn dont_enable_pcie_aspm(&self) -> bool {
        has_bit(self.0 as u64, 4)
    }

    /// CMOS RTC Not Present (bit 5, section 5.2.9.3): whether the clock must be used through its control method, and
    /// not by its ports.
    pub fn use_time_and_alarm_namespace_for_rtc(&self) -> bool {
        has_bit(self.0 as u64, 5)
    }
}

impl ArmBootArchFlags {
    /// PSCI_COMPLIANT (bit 0, section 5.2.9.4): whether the machine follows PSCI.
    pub fn implements_psci(&self) -> bool {
        has_bit(self.0 as u64, 0)
    }

    /// PSCI_USE_HVC (bit 1, section 5.2.9.4): whether PSCI is called by HVC in place of SMC.
    pub fn use_hvc_as_psci_conduit(&self) -> bool {
        has_bit(self.0 as u64, 1)
    }
}
