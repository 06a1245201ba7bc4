//! What the programs use of Rattle's std where it isn't Rust's: what allocates is passed an allocator and fails with an
//! error, and a program reaches outside by a runtime that its `main` is passed.

pub mod alloc;
#[cfg(unix)]
mod begun;
pub mod bitflags;
pub mod collections;
pub mod fs;
pub mod os;
pub mod pieces;
pub mod runtime;
pub mod slices;
pub mod string;
pub mod vec;

pub use crate::{format, println, vec};
pub use pieces::Pieces;
pub use runtime::io::ReadToEndIn;
pub use runtime::{HostRuntime, env, io, process, time};
pub use slices::{CollectIn, ToVecIn};
pub use string::{String, TryToString as ToString};
pub use vec::Vec;
pub use zacpi::TryClone;
