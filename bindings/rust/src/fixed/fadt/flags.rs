// Made by scripts/erase of crates/acpi_fixed/src/fadt/flags.rt, where it is proved.
//! The flags of the FADT (sections 5.2.9, 5.2.9.3 and 5.2.9.4), each of which is a method in `codes`.

/// Fixed Feature Flags (Flags): what the fixed hardware does and needs (ACPI 6.4, section 5.2.9).
#[derive(Clone, Copy, Debug)]
pub struct FixedFeatureFlags(pub(super) u32);

/// IAPC_BOOT_ARCH, the IA-PC Boot Architecture Flags: the devices of a PC (ACPI 6.4, section 5.2.9.3).
#[derive(Clone, Copy, Debug)]
pub struct IaPcBootArchFlags(pub(super) u16);

/// ARM_BOOT_ARCH, the Arm Boot Architecture Flags: the way in which the firmware of an Arm machine is called
/// (ACPI 6.4, section 5.2.9.4).
#[derive(Clone, Copy, Debug)]
pub struct ArmBootArchFlags(pub(super) u16);
