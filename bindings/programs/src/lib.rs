#![doc = include_str!("../README.md")]
// All of it is in rattle/begun.rs.
#![deny(unsafe_code)]

// The proved crates of the programs, each as a module: made by scripts/erase.
pub mod cli;
pub mod code;
pub mod image;
pub mod image_reader;
pub mod input;
pub mod pack;
pub mod view;
pub mod walk;

// What they use of Rattle's libraries.
pub mod rattle;
