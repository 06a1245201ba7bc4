// Made by scripts/erase of crates/acpi_base/src/table/header.rt, where it is proved.
//! The header that every table begins with (section 5.2.6), and what a type of table is made with.

pub use crate::base::bytes::{byte_sum, field};
pub use crate::base::extended::ExtendedField;
pub use crate::base::table::signature::Signature;
pub use crate::base::table::{AcpiTable, map_own_sdt, map_sdt, map_table};
pub use crate::bytes::header::SdtHeader;
