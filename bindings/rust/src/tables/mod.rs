//! Every table's fields, as views over its bytes, by the names of its specification: for tables that this package has
//! no calls for. `scripts/tables_rust` makes the views of the layouts by which `acpi_dump` shows tables.
//!
//! A view reads each field as a little-endian number, of which bytes past the end of the table or entry are 0;
//! `is_whole` tells whether all of its fixed fields are there. What follows them is a list of [`Entries`], which stays
//! inside the bytes: it ends at the first entry whose length is 0 or reaches too far. Tables' bytes come from
//! [`PhysicalMapping::bytes`](crate::PhysicalMapping::bytes) of a table that was found, whose sum is right.
//!
//! ```
//! use zacpi::tables::{Pptt, PpttNode, View};
//!
//! /// How many bytes all caches of a PPTT have.
//! fn cache_bytes(table: &[u8]) -> Option<u64> {
//!     let caches = Pptt::of(table)?.nodes().filter_map(|node| match node {
//!         PpttNode::CacheTypeStructure(cache) => Some(u64::from(cache.size())),
//!         _ => None,
//!     });
//!     Some(caches.sum())
//! }
//! # assert_eq!(cache_bytes(&[0; 35]), None);
//! # assert_eq!(cache_bytes(&[0; 36]), Some(0));
//! ```

mod made;

pub use made::*;

use core::marker::PhantomData;

/// What is made of the bytes of a table or of a part of one.
pub trait View<'a>: Sized {
    /// The view of these bytes, or `None` if they are fewer than the header of a table.
    fn of(bytes: &'a [u8]) -> Option<Self>;
}

/// A number of up to eight bytes at an offset, the lowest first. Bytes that aren't there are 0.
pub(crate) fn number(bytes: &[u8], offset: usize, length: usize) -> u64 {
    let field = bytes.get(offset..).unwrap_or(&[]);
    field[..length.min(field.len())].iter().rev().fold(0, |number, byte| number << 8 | u64::from(*byte))
}

/// As a length or an offset: one that no slice has if it is too large.
pub(crate) fn length(number: u64) -> usize {
    usize::try_from(number).unwrap_or(usize::MAX)
}

/// What is one after the other in a table.
#[derive(Clone, Copy, Debug)]
pub struct Entries<'a, V> {
    rest: &'a [u8],
    left: usize,
    length: fn(&[u8]) -> usize,
    views: PhantomData<V>,
}

impl<'a, V> Entries<'a, V> {
    /// The entries from an offset on, up to so many, each as long as `length` returns for the bytes from its first on.
    pub(crate) fn new(bytes: &'a [u8], offset: usize, left: usize, length: fn(&[u8]) -> usize) -> Self {
        Entries { rest: bytes.get(offset..).unwrap_or(&[]), left, length, views: PhantomData }
    }

    /// The bytes after the entries that were returned: those that no entry was made of, once all have been.
    pub fn rest(&self) -> &'a [u8] {
        self.rest
    }
}

impl<'a, V: View<'a>> Iterator for Entries<'a, V> {
    type Item = V;

    fn next(&mut self) -> Option<V> {
        let length = (self.length)(self.rest);
        if self.left == 0 || length == 0 || length > self.rest.len() {
            return None;
        }
        let (entry, rest) = self.rest.split_at(length);
        let view = V::of(entry)?;
        (self.rest, self.left) = (rest, self.left - 1);
        Some(view)
    }
}

/// The generic address of a register (section 5.2.3.2).
#[derive(Clone, Copy, Debug, PartialEq, Eq)]
pub struct Register {
    /// Address Space ID.
    pub address_space_id: u8,
    /// Register Bit Width.
    pub bit_width: u8,
    /// Register Bit Offset.
    pub bit_offset: u8,
    /// Access Size.
    pub access_size: u8,
    /// Address.
    pub address: u64,
}

impl Register {
    fn at(bytes: &[u8], offset: usize) -> Self {
        let byte = |at| number(bytes, offset + at, 1) as u8;
        let address = number(bytes, offset + 4, 8);
        Register { address_space_id: byte(0), bit_width: byte(1), bit_offset: byte(2), access_size: byte(3), address }
    }
}

/// A view with its fields.
macro_rules! view {
    ($(#[$what:meta])* $name:ident $least:literal of $size:literal { $($field:ident: $type:tt @ $at:literal,)* }
        $(lists { $($list:ident: $view:ident = ($from:expr, $count:expr, $length:expr),)* })?
        $(constants { $($constant:ident: $kind:ty = $number:literal,)* })?) => {
        $(#[$what])*
        #[derive(Clone, Copy, Debug)]
        pub struct $name<'a>(&'a [u8]);

        impl<'a> View<'a> for $name<'a> {
            fn of(bytes: &'a [u8]) -> Option<Self> {
                bytes.get(..$least).map(|_| $name(bytes))
            }
        }

        impl<'a> $name<'a> {
            $($(#[doc = concat!("`", stringify!($constant), "`.")] pub const $constant: $kind = $number;)*)?

            /// All its bytes.
            pub fn bytes(&self) -> &'a [u8] {
                self.0
            }

            /// Whether all of its fixed fields are there.
            pub fn is_whole(&self) -> bool {
                self.0.len() >= $size
            }
            $(
                #[doc = concat!("`", stringify!($field), "`, at byte ", stringify!($at), ".")]
                pub fn $field(&self) -> view!(@type $type) {
                    view!(@read $type, self.0, $at)
                }
            )*
            $($(
                #[doc = concat!("Its list of [`", stringify!($view), "`].")]
                pub fn $list(&self) -> Entries<'a, $view<'a>> {
                    let from: fn(&[u8]) -> usize = $from;
                    let count: fn(&[u8]) -> usize = $count;
                    Entries::new(self.0, from(self.0), count(self.0), $length)
                }
            )*)?
        }
    };
    (@type u8) => { u8 };
    (@type u16) => { u16 };
    (@type u32) => { u32 };
    (@type u64) => { u64 };
    (@type register) => { Register };
    (@type $length:literal) => { [u8; $length] };
    (@read register, $bytes:expr, $at:literal) => { Register::at($bytes, $at) };
    (@read u8, $bytes:expr, $at:literal) => { number($bytes, $at, 1) as u8 };
    (@read u16, $bytes:expr, $at:literal) => { number($bytes, $at, 2) as u16 };
    (@read u32, $bytes:expr, $at:literal) => { number($bytes, $at, 4) as u32 };
    (@read u64, $bytes:expr, $at:literal) => { number($bytes, $at, 8) };
    (@read $length:literal, $bytes:expr, $at:literal) => {
        core::array::from_fn(|index| number($bytes, $at + index, 1) as u8)
    };
}
pub(crate) use view;

/// A structure of one of several types.
macro_rules! kinds {
    ($(#[$what:meta])* $name:ident at $offset:literal, $length:literal { $($first:literal ..= $last:literal => $kind:ident($view:ident),)* }) => {
        $(#[$what])*
        #[derive(Clone, Copy, Debug)]
        #[non_exhaustive]
        pub enum $name<'a> {
            $(#[doc = concat!("Type ", stringify!($first), ".")] $kind($view<'a>),)*
            /// Another type.
            Other(&'a [u8]),
        }

        impl<'a> View<'a> for $name<'a> {
            fn of(bytes: &'a [u8]) -> Option<Self> {
                match number(bytes, $offset, $length) {
                    $($first..=$last => $view::of(bytes).map($name::$kind),)*
                    _ => Some($name::Other(bytes)),
                }
            }
        }
    };
}
pub(crate) use kinds;
