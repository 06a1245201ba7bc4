//! Tables that are written, each byte worked out by hand from the layouts. `tests/c/rows_written.h` has the bytes of
//! what C can pass too, over the same calls.
mod machine;
mod refused;
mod tables;

use tables::{FADT, IDS};
use zacpi::write::fadt::{ArmBootFeatures, FixedFeatures, LegacyFields, PcBootFeatures};
use zacpi::write::{FadtContents, FadtHardware, write_fadt};

/// A FADT of fixed hardware and a reset register, with no feature.
const NO_FEATURES: FadtContents = FadtContents {
    features: FixedFeatures::NONE,
    pc_boot: PcBootFeatures::NONE,
    arm_boot: ArmBootFeatures::NONE,
    legacy: LegacyFields::NONE,
    ..FADT
};

/// From P_LVL2_LAT at 96 on neither C2 nor C3, zeros for the rest of `LegacyFields`, and at 109 no bit of
/// IAPC_BOOT_ARCH.
const NO_LEGACY: [u8; 16] = [0xff, 0x0f, 0xff, 0x0f, 0, 0, 0, 0, 0, 0, 0, 0, 0, 0, 0, 0];

/// Of Flags, at 112, RESET_REG_SUP, bit 10, is set for a reset register and HW_REDUCED_ACPI, bit 20, for reduced
/// hardware, since these follow from other fields than the features.
#[test]
fn no_feature_sets_no_flag() {
    let neither = FadtContents { reset_register: None, ..NO_FEATURES };
    let cases = [
        ("neither", neither, [0, 0, 0, 0]),
        ("a reset register", NO_FEATURES, [0, 4, 0, 0]),
        ("reduced hardware", FadtContents { hardware: FadtHardware::Reduced, ..neither }, [0, 0, 0x10, 0]),
    ];
    for (name, contents, flags) in cases {
        let mut out = [7; 276];
        assert_eq!(write_fadt(&mut out, &IDS, &contents), Ok(276), "{name}");
        assert_eq!((&out[96..112], &out[112..116]), (&NO_LEGACY[..], &flags[..]), "{name}");
        assert_eq!(out[129..131], [0, 0], "{name}"); // ARM_BOOT_ARCH
    }
}
