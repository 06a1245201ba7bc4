//! Sets of flags: the package's, and as text.
pub use zacpi::flags::{Flag, Flags};

/// Flags as text.
pub mod parser {
    use super::Flags;
    use core::fmt;

    /// Writes the names of the flags in a set, and the bits that have none.
    pub fn to_writer<F: Flags<Bits = u8>, W: fmt::Write>(set: &F, writer: &mut W) -> fmt::Result {
        let (mut rest, mut between) = (set.bits(), "");
        for flag in F::flags() {
            let bits = flag.value.bits();
            if set.bits() & bits == bits && rest & bits != 0 {
                write!(writer, "{between}{}", flag.name)?;
                rest &= !bits;
                between = " | ";
            }
        }
        if rest != 0 { write!(writer, "{between}{rest:#x}") } else { Ok(()) }
    }
}
