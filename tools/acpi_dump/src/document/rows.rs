//! The rows of a table: its fields, in the structures that they are in, and the objects of its AML.

use super::constants::Constant;
use super::{hex, wide};
use crate::prelude::*;
use acpi_programs::walk::aml::Value;
use serde::Serialize;

#[derive(Serialize)]
#[serde(untagged)]
pub(crate) enum Row {
    Field {
        /// The names of the flags that are set.
        #[serde(skip_serializing_if = "Option::is_none")]
        flags: Option<Vec<String>>,
        length: usize,
        #[serde(skip_serializing_if = "String::is_empty")]
        meaning: String,
        name: &'static str,
        #[serde(skip_serializing_if = "Option::is_none")]
        number: Option<u64>,
        offset: u64,
        #[serde(skip_serializing_if = "Option::is_none")]
        parts: Option<Parts>,
        value: Constant,
    },
    Bytes {
        bytes: String,
        length: usize,
        offset: u64,
    },
    Structure {
        entry: u64,
        fields: Vec<Row>,
        length: u64,
        name: &'static str,
        offset: u64,
        #[serde(skip_serializing_if = "Option::is_none")]
        r#type: Option<u64>,
    },
    Malformed {
        malformed: String,
        offset: u64,
    },
    Object {
        kind: &'static str,
        length: u64,
        offset: u64,
        #[serde(skip_serializing_if = "Option::is_none")]
        path: Option<String>,
        #[serde(skip_serializing_if = "Option::is_none")]
        text: Option<String>,
        #[serde(skip_serializing_if = "Option::is_none")]
        r#type: Option<&'static str>,
        #[serde(skip_serializing_if = "Option::is_none")]
        value: Option<Constant>,
    },
    Ends {
        ends: String,
        offset: u64,
    },
}

/// The parts of a generic address (section 5.2.3.2).
#[derive(Serialize)]
pub(crate) struct Parts {
    access: u8,
    address: String,
    offset: u8,
    space: u8,
    width: u8,
}

impl Parts {
    fn of(bytes: &[u8]) -> Option<Parts> {
        let [space, width, offset, access, address @ ..] = bytes else {
            return None;
        };
        let address = wide(number_of(address));
        Some(Parts { access: *access, address, offset: *offset, space: *space, width: *width })
    }
}

/// The rows of a table, as a walk comes to them.
#[derive(Default)]
pub(crate) struct Rows {
    rows: Vec<Row>,
    /// The structures that have begun and haven't ended, each with the rows around it.
    open: Vec<(Group, Vec<Row>)>,
}

impl Rows {
    pub(crate) fn of(entry: &Entry<'_>) -> Vec<Row> {
        let mut rows = Rows::default();
        if let Some(signature) = entry.signature() {
            walk_with_objects(Global, signature, entry.bytes, &mut rows);
        }
        rows.rows
    }

    pub(crate) fn into_row(mut self) -> Option<Row> {
        self.rows.pop()
    }
}

/// The value of a field: a number of up to four bytes as one, and else hexadecimal text.
fn value_of(shown: &Field<'_>) -> Constant {
    let is_number = !matches!(shown.label.meaning, Meaning::Text | Meaning::Wide | Meaning::Row | Meaning::Guid);
    if is_number && shown.bytes.len() <= 4 {
        Constant::Number(number_of(shown.bytes))
    } else {
        Constant::Text(printed(|out| print_value(shown, out)))
    }
}

impl Show for Rows {
    fn field(&mut self, shown: &Field<'_>) {
        let kind = shown.label.meaning;
        let is_decimal = matches!(kind, Meaning::Decimal);
        let meaning = if is_decimal { String::new() } else { printed(|out| print_meaning(shown, out)) };
        let meaning = meaning.trim();
        let flags = || meaning.split(", ").filter(|name| !name.is_empty()).map(str::to_string).collect();
        self.rows.push(Row::Field {
            flags: matches!(kind, Meaning::Flags).then(flags),
            length: shown.bytes.len(),
            name: shown.label.name,
            number: shown.number,
            offset: shown.offset,
            parts: matches!(kind, Meaning::Register).then(|| Parts::of(shown.bytes)).flatten(),
            value: value_of(shown),
            meaning: meaning.to_string(),
        });
    }

    fn bytes(&mut self, offset: u64, bytes: &[u8]) {
        if !bytes.is_empty() {
            self.rows.push(Row::Bytes { bytes: hex(bytes), length: bytes.len(), offset });
        }
    }

    fn begin(&mut self, group: &Group) {
        self.open.push((*group, std::mem::take(&mut self.rows)));
    }

    fn end(&mut self) {
        if let Some((group, around)) = self.open.pop() {
            let fields = std::mem::replace(&mut self.rows, around);
            let Group { number: entry, length, name, offset, kind, .. } = group;
            self.rows.push(Row::Structure { entry, fields, length, name, offset, r#type: kind });
        }
    }

    fn malformed(&mut self, offset: u64, fault: Fault) {
        self.rows.push(Row::Malformed { malformed: printed(|out| fault.print(offset, out)), offset });
    }
}

impl ShowObjects for Rows {
    fn object(&mut self, object: &Object<'_>) {
        let path = object.path.unwrap_or(&[]);
        let is_shown = !matches!(object.value, Value::Hidden);
        let (r#type, value) = is_shown.then(|| Constant::of_object(path, object.value)).unzip();
        self.rows.push(Row::Object {
            kind: object.kind,
            length: object.length,
            offset: object.offset,
            path: object.path.map(|path| printed(|out| print_path(path, out))),
            text: is_shown.then(|| printed(|out| object.value.print(path, "; ", out))),
            r#type,
            value,
        });
    }

    fn ends(&mut self, offset: u64, why: Ends) {
        self.rows.push(Row::Ends { ends: printed(|out| why.print(out)), offset });
    }
}
