// Made by scripts/erase of crates/acpi_base/src/memory/guarded.rt, where it is proved.
//! A lender of which only some ranges may be requested.

use crate::base::error::AcpiResult;
use crate::base::memory::handler::Lender;

/// A lender over another one, of which it requests what is requested of it, and nothing else. Only the ranges
/// of a list may be requested of it, each a physical address and a number of bytes, as far as they may be
/// requested of the other one. Of a handler any range may be requested.
///
/// Nothing is tested when it runs: a call over it is proved only if it requests no range that isn't listed.
#[derive(Debug)]
pub struct Guarded<'h, H: Lender> {
    handler: &'h H,
    ranges: &'h [(u64, usize)],
}

impl<'h, H: Lender> Guarded<'h, H> {
    /// A lender over another one, or over a handler, of which these ranges alone may be requested: physical
    /// addresses, and the number of bytes from each on.
    pub fn new(handler: &'h H, ranges: &'h [(u64, usize)]) -> Self {
        Guarded { handler, ranges }
    }
}

impl<H: Lender> Lender for Guarded<'_, H> {
    fn lend(&self, address: u64, size: usize) -> AcpiResult<&[u8]> {
        self.handler.lend(address, size)
    }

    fn end_loan(&self, address: u64, region_length: usize, mapped_length: usize) {
        self.handler.end_loan(address, region_length, mapped_length);
    }
}
