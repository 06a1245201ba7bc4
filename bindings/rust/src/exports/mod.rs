// Made by scripts/erase of crates/acpi_c/src/lib.rt, where it is proved.
//! The library for C, and for Rust without std. `include/zacpi.h` has for each call what it returns and in which order
//! it fails, and what a caller keeps; `docs/C.md` has what a caller has to know besides. Sections refer to ACPI 6.4
//! unless another document is named.
//!
//! Each export can be called with any numbers: it checks the regions, opens the tables anew, and returns 0, or the
//! number of an error, and has then written nothing but the signature that the error carries. No export takes memory
//! or keeps a state. A list writes its first items up to the capacity, and how many there are.

#![allow(unsafe_code)]
// Records have slices where C's have a pointer and a number: rustc lays them out so.
#![allow(improper_ctypes_definitions)]

mod made;
