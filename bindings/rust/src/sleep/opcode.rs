// Made by scripts/erase of crates/acpi_sleep/src/opcode.rt, where it is proved.
//! Opcodes, also of what is run: statements and expressions (sections 20.2.5.3, 20.2.5.4 and 20.3).

use crate::sleep::block::byte_at;
use crate::sleep::error::AmlError;

/// An opcode.
#[derive(Clone, Copy, Debug)]
#[non_exhaustive]
pub struct Opcode {
    /// Its number: of an opcode of two bytes, the first is the higher one.
    pub code: u16,
    /// The offset after it.
    pub end: usize,
}

/// The opcode that begins at an offset, which is at most the length of the AML.
///
/// Fails with `PastEnd` if the AML ends before the opcode does.
pub fn opcode_at(aml: &[u8], at: usize) -> Result<Opcode, AmlError> {
    let first = byte_at(aml, at)?;
    if first == 0x5B {
        let second = byte_at(aml, at + 1)?;
        return Ok(Opcode { code: 0x5B00 + second as u16, end: at + 2 });
    }
    Ok(Opcode { code: first as u16, end: at + 1 })
}

/// Whether an opcode is that of a statement, such as `Notify`, `Return` or `Sleep`, and not of an `If`, an `Else`, a
/// `While` or a `Noop`.
pub(crate) fn is_statement(code: u16) -> bool {
    matches!(code, 0x86 | 0x9F | 0xA4 | 0xA5 | 0xCC | 0x5B21 | 0x5B22 | 0x5B24 | 0x5B26 | 0x5B27 | 0x5B32)
}

/// Whether an opcode is that of an expression, such as `Store`, `Multiply` or `DerefOf`, and not of a buffer or a
/// package.
pub(crate) fn is_expression(code: u16) -> bool {
    (0x70 <= code && code <= 0x85)
        || (0x87 <= code && code <= 0x89)
        || code == 0x8E
        || (0x90 <= code && code <= 0x99)
        || (0x9C <= code && code <= 0x9E)
        || code == 0x5B12
        || (0x5B1F <= code && code <= 0x5B20)
        || code == 0x5B23
        || code == 0x5B25
        || (0x5B28 <= code && code <= 0x5B2A)
        || code == 0x5B33
}
