//! Sets of flags, with the functions that crates.io's `bitflags` gives such a type.
use crate::spcr::{SpcrFlowControl, SpcrInterruptType, SpcrTerminalType};
use core::ops::{BitAnd, BitOr, BitXor, Not, Sub};

/// A flag, and its name.
#[derive(Debug)]
pub struct Flag<B: 'static> {
    /// The name of its constant.
    pub name: &'static str,
    /// The set of this flag alone.
    pub value: B,
}

/// A set of flags of the bits of a number. A bit that has no flag may be set too.
pub trait Flags: Sized + 'static {
    /// The number.
    type Bits: Copy + PartialEq + Default + BitAnd<Output = Self::Bits> + BitOr<Output = Self::Bits>;

    /// Each flag, in the order of the bits.
    fn flags<'a>() -> &'a [Flag<Self>];

    /// The number whose bits are set.
    fn bits(&self) -> Self::Bits;

    /// The set of these bits, also of those that have no flag.
    fn from_bits_retain(bits: Self::Bits) -> Self;

    /// The set of all flags.
    fn all() -> Self {
        let bits = Self::flags().iter().fold(Self::Bits::default(), |bits, flag| bits | flag.value.bits());
        Self::from_bits_retain(bits)
    }

    /// The set of the flags among these bits, without the others.
    fn from_bits_truncate(bits: Self::Bits) -> Self {
        Self::from_bits_retain(bits & Self::all().bits())
    }

    /// The set of these bits, if each has a flag.
    fn from_bits(bits: Self::Bits) -> Option<Self> {
        let known = Self::from_bits_truncate(bits);
        (known.bits() == bits).then_some(known)
    }

    /// The set of the flag of a name.
    fn from_name(name: &str) -> Option<Self> {
        let flag = Self::flags().iter().find(|flag| flag.name == name)?;
        Some(Self::from_bits_retain(flag.value.bits()))
    }
}

/// The functions of a set that need no import, as `bitflags` gives them.
macro_rules! sets {
    ($($set:ident)*) => { $(
        impl $set {
            /// The set of no flag.
            pub fn empty() -> Self {
                <Self as Flags>::from_bits_retain(0)
            }

            /// The set of all flags.
            pub fn all() -> Self {
                <Self as Flags>::all()
            }

            /// The number whose bits are set.
            pub fn bits(&self) -> u8 {
                Flags::bits(self)
            }

            /// The set of these bits, if each has a flag.
            pub fn from_bits(bits: u8) -> Option<Self> {
                <Self as Flags>::from_bits(bits)
            }

            /// The set of the flags among these bits, without the others.
            pub fn from_bits_truncate(bits: u8) -> Self {
                <Self as Flags>::from_bits_truncate(bits)
            }

            /// The set of these bits, also of those that have no flag.
            pub fn from_bits_retain(bits: u8) -> Self {
                <Self as Flags>::from_bits_retain(bits)
            }

            /// Whether no flag is set.
            pub fn is_empty(&self) -> bool {
                self.bits() == 0
            }

            /// Whether all flags of another set are set.
            pub fn contains(&self, other: Self) -> bool {
                self.bits() & other.bits() == other.bits()
            }

            /// Whether a flag of another set is set.
            pub fn intersects(&self, other: Self) -> bool {
                self.bits() & other.bits() != 0
            }
        }

        impl BitOr for $set {
            type Output = Self;

            fn bitor(self, other: Self) -> Self {
                Self::from_bits_retain(self.bits() | other.bits())
            }
        }

        impl BitAnd for $set {
            type Output = Self;

            fn bitand(self, other: Self) -> Self {
                Self::from_bits_retain(self.bits() & other.bits())
            }
        }

        impl BitXor for $set {
            type Output = Self;

            fn bitxor(self, other: Self) -> Self {
                Self::from_bits_retain(self.bits() ^ other.bits())
            }
        }

        impl Sub for $set {
            type Output = Self;

            fn sub(self, other: Self) -> Self {
                Self::from_bits_retain(self.bits() & !other.bits())
            }
        }

        impl Not for $set {
            type Output = Self;

            fn not(self) -> Self {
                Self::from_bits_truncate(!self.bits())
            }
        }
    )* };
}

sets! { SpcrInterruptType SpcrTerminalType SpcrFlowControl }
