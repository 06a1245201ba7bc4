//! What most modules use of the proved core.

pub(crate) use crate::text::{granted, printed, text_of};
pub(crate) use acpi_programs::code::Known as Names;
pub(crate) use acpi_programs::input::entries::{Entry, Place, own_signature, print_name};
pub(crate) use acpi_programs::input::errors::{Log, Stop, fail, tell};
pub(crate) use acpi_programs::rattle::alloc::Global;
pub(crate) use acpi_programs::walk::aml::{Ends, Object};
pub(crate) use acpi_programs::walk::fault::Fault;
pub(crate) use acpi_programs::walk::fields::{
    number_of, print_hex, print_meaning, print_path, print_text, print_value, size_of,
};
pub(crate) use acpi_programs::walk::language::{Meaning, number_at, size};
pub(crate) use acpi_programs::walk::out::Out;
pub(crate) use acpi_programs::walk::walk::{Field, Group, Show, ShowObjects, walk_table, walk_with_objects};
pub(crate) use zacpi::sdt::{SdtHeader, Signature, field};
pub(crate) use zacpi::{AcpiError, PhysicalRecord};
