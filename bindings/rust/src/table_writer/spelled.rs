// Made by scripts/erase of crates/acpi_table_writer/src/spelled.rt, where it is proved.
//! What has bytes in a table: an entry, entries in a row, one part after another, and bytes that are given.

use core::marker::PhantomData;

/// Something that has bytes in a table.
pub trait Spelled {
    /// How many bytes it has, or `None` if these are more than there is room for.
    fn measure(&self, room: usize) -> Option<usize>;

    /// Puts its bytes in place of all bytes of a slice that is as long.
    ///
    /// # Panics
    ///
    /// May panic if the slice has another length.
    fn put(&self, out: &mut [u8]);
}

/// What is written as an item of a table: the item itself, or a record of a caller's own.
pub trait StandsFor<T: Copy>: Copy {
    /// The item.
    fn item(&self) -> T;
}

impl<T: Copy> StandsFor<T> for T {
    fn item(&self) -> T {
        *self
    }
}

/// The items that the things of a list mean, one after the other.
#[derive(Clone, Copy, Debug)]
pub struct EachItem<'a, T, R>(pub &'a [R], pub PhantomData<T>);

impl<T: Spelled + Copy, R: StandsFor<T>> Spelled for EachItem<'_, T, R> {
    fn measure(&self, room: usize) -> Option<usize> {
        let things = self.0;
        let mut size = 0;
        for x in things {
            match x.item().measure(room - size) {
                Some(more) => size += more,
                None => return None,
            }
        }
        Some(size)
    }

    fn put(&self, out: &mut [u8]) {
        let things = self.0;
        let mut at = 0;
        for x in things {
            let item = x.item();
            match item.measure(out.len() - at) {
                Some(size) => {
                    item.put(&mut out[at..at + size]);
                    at += size;
                }
                None => return,
            }
        }
    }
}

/// The things of a list, one after the other.
#[derive(Clone, Copy, Debug)]
pub struct Each<'a, T>(pub &'a [T]);

impl<T: Spelled + Copy> Spelled for Each<'_, T> {
    fn measure(&self, room: usize) -> Option<usize> {
        EachItem::<T, T>(self.0, PhantomData).measure(room)
    }

    fn put(&self, out: &mut [u8]) {
        EachItem::<T, T>(self.0, PhantomData).put(out);
    }
}

/// One thing, and after it another.
#[derive(Clone, Copy, Debug)]
pub struct Then<A, B>(pub A, pub B);

impl<A: Spelled, B: Spelled> Spelled for Then<A, B> {
    fn measure(&self, room: usize) -> Option<usize> {
        match self.0.measure(room) {
            Some(first) => match self.1.measure(room - first) {
                Some(second) => Some(first + second),
                None => None,
            },
            None => None,
        }
    }

    fn put(&self, out: &mut [u8]) {
        match self.0.measure(out.len()) {
            Some(first) => {
                self.0.put(&mut out[..first]);
                self.1.put(&mut out[first..]);
            }
            None => {}
        }
    }
}

/// Bytes, as they are.
#[derive(Clone, Copy, Debug)]
pub struct Bytes<'a>(pub &'a [u8]);

impl<'a> Spelled for Bytes<'a> {
    fn measure(&self, room: usize) -> Option<usize> {
        if room < self.0.len() { None } else { Some(self.0.len()) }
    }

    fn put(&self, out: &mut [u8]) {
        out.copy_from_slice(self.0);
    }
}
