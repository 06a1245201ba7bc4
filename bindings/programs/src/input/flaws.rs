// Made by scripts/erase of crates/acpi_dump_input/src/flaws.rt, where it is proved.
//! Whether a walk over a table finds it malformed.

use crate::input::entries::own_signature;
use crate::rattle::alloc::Global;
use crate::walk::aml::{Ends, Object};
use crate::walk::fault::Fault;
use crate::walk::walk::{Show, ShowObjects, walk_with_objects};

/// Whether a part of a table is malformed.
#[derive(Clone, Copy)]
struct Flaws {
    are_some: bool,
}

impl Show for Flaws {
    fn takes_fields(&self) -> bool {
        false
    }

    fn malformed(&mut self, _offset: u64, _fault: Fault) {
        self.are_some = true;
    }
}

impl ShowObjects for Flaws {
    fn object(&mut self, _object: &Object<'_>) {}

    fn ends(&mut self, _offset: u64, why: Ends) {
        self.are_some |= why.is_malformed();
    }
}

/// Whether a part of a table doesn't match its layout, or its AML isn't understood for a fault of its own.
pub(crate) fn is_malformed(alloc: Global, table: &[u8]) -> bool {
    let mut flaws = Flaws { are_some: false };
    walk_with_objects(alloc, own_signature(table), table, &mut flaws);
    flaws.are_some
}
