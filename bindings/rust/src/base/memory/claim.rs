// Made by scripts/erase of crates/acpi_base/src/memory/claim.rt, where it is proved.
//! Claims: bytes that a handler mapped, until its notice.

use crate::base::error::AcpiResult;
use crate::base::memory::handler::Lender;

/// Bytes that a handler mapped, and how many of them are shown. A claim is no `Drop`, so the compiler rejects a path
/// that lets one go out of scope or ends one twice. Only `end`, `widen` and the drop of a mapping take one apart. The
/// notice has the range that was granted.
#[derive(Debug)]
pub(crate) struct Claim<'h, H: Lender> {
    pub(super) start: u64,
    pub(super) lent: &'h [u8],
    pub(super) region_length: usize,
    pub(super) handler: &'h H,
}

impl<'h, H: Lender> Claim<'h, H> {
    /// A claim of bytes that are mapped already, of which the first `region_length` are shown.
    pub(crate) fn new(start: u64, lent: &'h [u8], region_length: usize, handler: &'h H) -> Self {
        Claim { start, lent, region_length, handler }
    }

    /// A claim of the bytes that the handler maps at an address, of which the first `size` are shown.
    pub(crate) fn request(handler: &'h H, address: u64, size: usize) -> AcpiResult<Self> {
        let granted = handler.lend(address, size)?;
        Ok(Claim::new(address, granted, size, handler))
    }

    /// A claim that shows the `size` bytes from this one's start on: of the bytes that are mapped already, if
    /// these are as many, or else requested anew, after the notice for what was mapped.
    pub(crate) fn widen(self, size: usize) -> AcpiResult<Self> {
        if size <= self.lent.len() {
            let Claim { start, lent, region_length: _, handler } = self;
            return Ok(Claim::new(start, lent, size, handler));
        }
        let handler = self.handler;
        let start = self.start;
        self.end();
        Claim::request(handler, start, size)
    }

    pub(crate) fn start(&self) -> u64 {
        self.start
    }

    /// All the mapped bytes.
    pub(crate) fn lent(&self) -> &[u8] {
        self.lent
    }

    /// The bytes that are shown: the first `region_length` of the mapped ones.
    pub(crate) fn shown(&self) -> &[u8] {
        &self.lent[..self.region_length]
    }

    pub(crate) fn handler(&self) -> &'h H {
        self.handler
    }

    /// Calls the handler's notice for what was mapped.
    pub(crate) fn notice(&self) {
        self.handler.end_loan(self.start, self.region_length, self.lent.len());
    }

    /// Calls the handler's notice for what was mapped, and takes the claim apart.
    pub(crate) fn end(self) {
        self.notice();
        let Claim { start: _, lent: _, region_length: _, handler: _ } = self;
    }
}
