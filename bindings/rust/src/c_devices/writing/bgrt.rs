// Made by scripts/erase of crates/acpi_c_devices/src/writing/bgrt.rt, where it is proved.
//! The BGRT that is written for C (section 5.2.22), from the record as which C reads it.

mod shown;

use crate::c_devices::records::BootGraphic;
use crate::write::bgrt::BgrtOrientation;
pub use shown::contents;

/// The orientation by its degrees; what any other number returns isn't used.
fn orientation(degrees: u16) -> BgrtOrientation {
    match degrees {
        90 => BgrtOrientation::Degrees90,
        180 => BgrtOrientation::Degrees180,
        270 => BgrtOrientation::Degrees270,
        _ => BgrtOrientation::Degrees0,
    }
}

/// Whether the image has an orientation that there is, and is a bitmap.
pub fn has_codes(graphic: &BootGraphic) -> bool {
    matches!(graphic.orientation, 0 | 90 | 180 | 270) && graphic.image_type == 0
}
