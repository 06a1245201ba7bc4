//! The values of AML's objects: of each its type and, by that, a number, a text, a list or an object.

use super::{hex, wide};
use crate::prelude::*;
use acpi_programs::walk::aml::Value;
use acpi_programs::walk::aml::constant::{
    buffer_in, elements_of, has_ids, integer_in, is_eisa_id, next_element, resources_in, text_in, uuid_in,
};
use acpi_programs::walk::aml::resources::{Descriptors, END, print_descriptor, tag_of};
use acpi_programs::walk::aml::value::{print_eisa_id, print_reference};
use acpi_programs::walk::fields::print_guid_digits;
use serde::Serialize;

/// How deep packages are shown in packages at most.
const DEEPEST: u32 = 8;

/// The largest number that readers of JSON keep as it is: one above it is a text.
const EXACT: u64 = (1 << 53) - 1;

#[derive(Serialize)]
#[serde(untagged)]
pub(crate) enum Constant {
    Number(u64),
    Text(String),
    Package(Vec<Element>),
    Resources(Vec<Resource>),
    Method {
        arguments: u8,
        serialized: bool,
    },
    Bits {
        count: u64,
        first: u64,
    },
    Buffer {
        bytes: String,
        #[serde(skip_serializing_if = "Option::is_none")]
        size: Option<u64>,
    },
}

#[derive(Serialize)]
pub(crate) struct Element {
    r#type: &'static str,
    value: Constant,
}

#[derive(Serialize)]
pub(crate) struct Resource {
    bytes: String,
    offset: usize,
    text: String,
}

fn text(kind: &'static str, print: impl FnOnce(&mut Out)) -> (&'static str, Constant) {
    (kind, Constant::Text(printed(print)))
}

impl Constant {
    pub(super) fn of_object(path: &[u8], value: Value<'_>) -> (&'static str, Constant) {
        match value {
            Value::Data(data) => match resources_in(path, data) {
                Some(bytes) => ("resources", Constant::Resources(resources_of(bytes))),
                None => Constant::of(data, has_ids(path), DEEPEST),
            },
            Value::Method(flags) => ("method", Constant::Method { arguments: flags % 8, serialized: flags & 8 != 0 }),
            Value::Bits(first, count) => ("bits", Constant::Bits { count, first }),
            _ => text("words", |out| value.print(path, "; ", out)),
        }
    }

    /// The type and the value of a constant, in which integers may be the ids of devices.
    fn of(data: &[u8], are_ids: bool, depth: u32) -> (&'static str, Constant) {
        if are_ids && is_eisa_id(data) {
            return text("eisa-id", |out| print_eisa_id(data, out));
        }
        if let Some(number) = integer_in(data) {
            let is_exact = number <= EXACT;
            return ("integer", if is_exact { Constant::Number(number) } else { Constant::Text(wide(number)) });
        }
        if let Some(letters) = text_in(data) {
            return text("string", |out| out.escaped(letters));
        }
        match (elements_of(data), buffer_in(data)) {
            (Some((count, elements)), _) if depth > 0 => {
                ("package", Constant::Package(package_of(count, elements, are_ids, depth - 1)))
            }
            (_, Some((size, bytes))) => match uuid_in(data) {
                Some(uuid) => text("uuid", |out| print_guid_digits(uuid, out)),
                None => ("buffer", Constant::Buffer { bytes: hex(bytes), size }),
            },
            _ => text("name", |out| print_reference(data, out)),
        }
    }
}

fn package_of(count: u64, elements: &[u8], are_ids: bool, depth: u32) -> Vec<Element> {
    let (mut package, mut rest) = (Vec::new(), elements);
    for _ in 0..count {
        let Some((element, others)) = next_element(rest) else {
            break;
        };
        let (r#type, value) = Constant::of(element, are_ids, depth);
        package.push(Element { r#type, value });
        rest = others;
    }
    package
}

/// Descriptors of resources, without the end tag: of each its bytes, its offset among them, and what it is.
fn resources_of(bytes: &[u8]) -> Vec<Resource> {
    let is_end = |descriptor: &[u8]| tag_of(descriptor.first().copied().unwrap_or(0)) == END;
    Descriptors::of(bytes)
        .take_while(|(_, descriptor)| !is_end(descriptor))
        .map(|(offset, descriptor)| {
            let text = printed(|out| print_descriptor(descriptor, out));
            Resource { bytes: hex(descriptor), offset, text }
        })
        .collect()
}
