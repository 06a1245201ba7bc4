// Made by scripts/erase of crates/acpi_c_devices/src/known.rt, where it is proved.
//! What a walk's items are read by, where that is nothing but themselves.

/// Nothing. An impl of another crate's trait has to name a type of this crate, so it isn't `()`.
#[derive(Clone, Copy, Debug)]
pub(crate) struct Nothing;
