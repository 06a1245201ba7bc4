//! The ACPI tables of an input: one line a table, the fields or the bytes of some, or the machine in short.
//! `--extract` saves the tables that it takes, as files of its folder, `--html` the page, and nothing else is saved.

mod accepted;
pub(crate) mod arguments;
mod contents;
mod files;
mod getters;
mod listing;
mod paint;
mod request;
pub(crate) mod run;
mod usage;
mod views;
mod wanted;
