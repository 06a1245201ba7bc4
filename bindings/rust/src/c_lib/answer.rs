// Made by scripts/erase of crates/acpi_c_lib/src/answer.rt, where it is proved.
//! How a result is written for C.

use crate::c_lib::records::Signature;
use crate::c_lib::refusal::Refusal;

/// The number that C gets: 0, with the value written, or the number of the error, with nothing written but the
/// signature that it carries.
pub fn answer<T: Copy>(said: Result<T, Refusal>, out: &mut T, named: &mut Signature) -> u32 {
    match said {
        Ok(value) => {
            *out = value;
            0
        }
        Err(refusal) => {
            name(refusal, named);
            refusal.code()
        }
    }
}

/// The number that C gets of a call whose errors carry no signature: 0, with the value written, or that of the error.
pub fn answer_plain<T: Copy>(said: Result<T, Refusal>, out: &mut T) -> u32 {
    match said {
        Ok(value) => {
            *out = value;
            0
        }
        Err(refusal) => refusal.code(),
    }
}

/// Writes the signature that an error carries, if it carries one.
#[inline(never)]
fn name(refusal: Refusal, named: &mut Signature) {
    if let Some(signature) = refusal.signature() {
        *named = Signature { letters: signature.to_bytes() };
    }
}
