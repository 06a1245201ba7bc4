// Made by scripts/erase of crates/acpi_table_writer/src/generic.rt, where it is proved.
//! Generic addresses (GAS, section 5.2.3.2): registers, as tables give them.

use crate::base::address::{AccessSize, AddressSpace, GenericAddress};
use crate::table_writer::fields::{Field, Record};
use crate::table_writer::made::generic::address_fields;

/// A register, or one of zeros if there is none.
pub(crate) fn register_or_zeros(register: Option<GenericAddress>) -> GenericAddress {
    match register {
        Some(given) => given,
        None => GenericAddress {
            address_space: AddressSpace::SystemMemory,
            bit_width: 0,
            bit_offset: 0,
            access_size: AccessSize::Undefined,
            address: 0,
        },
    }
}

/// Whether the code of a space is one of its own: an OEM's is 0xc0 or above.
pub(crate) fn is_named_space(space: AddressSpace) -> bool {
    match space {
        AddressSpace::OemDefined(code) => code >= 0xc0,
        _ => true,
    }
}

/// Whether a register, if there is one, is at an address other than 0 of a space that its code names.
pub(crate) fn is_register(register: Option<GenericAddress>) -> bool {
    match register {
        Some(given) => given.address != 0 && is_named_space(given.address_space),
        None => true,
    }
}

impl Record for Option<GenericAddress> {
    type Fields = [Field; 5];

    fn fields(&self) -> [Field; 5] {
        address_fields(&register_or_zeros(*self))
    }
}
