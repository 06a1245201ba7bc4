//! The objects that the AML of a machine's tables defines (ACPI 6.5, sections 5.3 and 20). AML is not run: nothing is
//! said of what a method returns, or of what is in an `If`.

mod bridges;
mod devices;
mod names;
mod resources;
mod values;

use crate::check::findings::Findings;
use crate::check::headers::TABLE_MALFORMED;
use crate::check::machine::{Machine, table_of};
use crate::check::numbers::Numbers;
use crate::check::rules::rules;
use crate::prelude::*;
use acpi_programs::input::status::Status;
use acpi_programs::walk::aml::constant::{elements_of, next_element};
use acpi_programs::walk::walk::has_aml;
use names::Names;

rules! {
    AML_TWICE = Error "aml-twice", "ACPI 6.5, section 5.3",
        "Two objects have one name", "",
        "Rename one of the two, or define the object in one table only. An OS drops the second one, and perhaps what \
         comes after it.";
    AML_RESOURCE_END = Error "aml-resource-end", "ACPI 6.5, section 6.4.2.9",
        "A resource template has no end tag", "ends at #, without an end tag",
        "End the template with 0x79 and a checksum or 0, as iasl does for each ResourceTemplate. An OS reads past its \
         end, or refuses it.";
    AML_RESOURCE_LENGTH = Error "aml-resource-length", "ACPI 6.5, section 6.4",
        "A resource descriptor hasn't the length of its type", "a descriptor of type # has length %",
        "Write the length that section 6.4 has for the type, or have iasl make the descriptor. An OS finds none of \
         those after it.";
    AML_RESOURCE_SUM = Error "aml-resource-sum", "ACPI 6.5, section 6.4.2.9",
        "The bytes of a resource template don't sum to 0", "checksum is #, should be #",
        "Write to the end tag what makes all bytes of the template sum to 0 modulo 256, or 0, by which no sum is \
         checked.";
    AML_RESOURCE_TYPE = Warning "aml-resource-type", "ACPI 6.5, section 6.4",
        "A resource descriptor is of a reserved type", "type # is reserved",
        "Use a descriptor of section 6.4. An OS may refuse the whole template for one that it doesn't know.";
    AML_EISA_ID = Error "aml-eisa-id", "ACPI 6.5, section 6.1.5",
        "An integer in _HID or _CID is no EISA id", "# is no EISA id",
        "Write it by EisaId, of three capital letters and four hexadecimal digits. An OS finds the driver by it.";
    AML_TEXT_ID = Warning "aml-text-id", "ACPI 6.5, section 6.1.5",
        "A text in _HID or _CID is neither a PNP id nor an ACPI id",
        "isn't three letters, or four letters or digits, and four hexadecimal digits",
        "Write three capital letters, or four capital letters or digits, and four hexadecimal digits, without an \
         asterisk before them. An OS finds the driver by it.";
    AML_NO_S5 = Warning "aml-no-s5", "ACPI 6.5, section 7.4.2",
        "A machine of fixed hardware has no _S5", "\\_S5 isn't defined",
        "Define \\_S5 as a package of the sleep types of soft off. Without it an OS can't power the machine off.";
    AML_SLEEP_TYPE = Error "aml-sleep-type", "ACPI 6.5, section 4.8.3.2.1",
        "A type of a sleep state isn't an integer up to 7", "",
        "Write the values of SLP_TYP for PM1a_CNT and PM1b_CNT, of three bits each, as integers.";
    AML_MCFG_RESERVED = Warning "aml-mcfg-reserved", "PCI Firmware Specification 3.3, section 4.1.2",
        "No device's _CRS has the memory of a region", "no _CRS has # to #",
        "Reserve the region in _CRS of a motherboard device (PNP0C02) below \\_SB. Linux may not use a region that \
         nothing reserves.";
    AML_WINDOWS = Warning "aml-windows", "ACPI 6.5, section 6.2.2",
        "Two host bridges have the same addresses", "",
        "Give each host bridge addresses of its own in _CRS. An OS could place two devices at one address.";
    AML_LINK_NOWHERE = Error "aml-link-nowhere", "ACPI 6.5, section 6.2.13",
        "A _PRT names a link device that isn't there", "",
        "Define the link device (PNP0C0F), or write 0 as the source of the route, and the global system interrupt as \
         its index.";
    AML_STATUS = Warning "aml-status", "ACPI 6.5, section 6.3.7",
        "A _STA has reserved bits", "# has the reserved bits #",
        "Write 0 to bits 5 to 31: present, enabled, shown, functioning and battery present are bits 0 to 4.";
    AML_UID_TWICE = Warning "aml-uid-twice", "ACPI 6.5, section 6.1.12",
        "Two devices have one _HID and one _UID", "",
        "Give each device of a _HID a _UID of its own, which stays the same from boot to boot. An OS tells them apart \
         by it.";
    AML_NO_PROCESSOR = Warning "aml-no-processor", "ACPI 6.5, section 5.2.12.2",
        "An enabled processor of the MADT is no processor of the AML",
        "no Processor or ACPI0007 has the UID % (% have none)",
        "Define a Device with _HID ACPI0007 and this UID as its _UID. Without it an OS has no idle states and no \
         frequencies of the processor.";
    AML_GPE_NOWHERE = Warning "aml-gpe-nowhere", "ACPI 6.5, section 5.6.4.1",
        "A method is of a general purpose event that no block has", "no block of the FADT has the event #",
        "Name the method after an event of GPE0_BLK or GPE1_BLK, in two hexadecimal digits, or correct the length or \
         the base of the block. It never runs otherwise.";
    AML_GPE_TWICE = Error "aml-gpe-twice", "ACPI 6.5, section 5.6.4.1",
        "A general purpose event has a method for edges and one for levels",
        "the event # is edge-triggered by \\_GPE._E, level-triggered by \\_GPE._L",
        "Keep _Exx if the event is edge-triggered, or _Lxx if it is level-triggered. An OS runs one of them only.";
}

pub(crate) fn check_aml(machine: &Machine<'_>, findings: &mut Findings) {
    let names = &names_of(machine, findings);
    check_twice(machine, names, findings);
    for it in &names.all {
        findings.table = it.table;
        if it.kind == "Name" {
            resources::check_template(names, it, findings);
            values::check_value(names, it, findings);
        }
    }
    values::check_links(machine, names, findings);
    values::check_soft_off(machine, names, findings);
    devices::check_ids(names, findings);
    devices::check_processors(machine, names, findings);
    devices::check_events(machine, names, findings);
    bridges::check_regions(machine, names, findings);
    bridges::check_windows(names, findings);
}

/// The objects of all tables with AML: those of a DSDT first, as it is loaded first, and of a table that is listed
/// twice once.
fn names_of<'a>(machine: &Machine<'a>, findings: &mut Findings) -> Names<'a> {
    let mut names = Names::new();
    let places = &mut Numbers::new();
    for (number, entry) in machine.entries.iter().enumerate() {
        if has_aml(own_signature(entry.bytes)) {
            places.push(0, entry.place.address().unwrap_or(0), number);
        }
    }
    places.sort();
    for is_first in [true, false] {
        for (number, entry) in machine.entries.iter().enumerate() {
            let signature = own_signature(entry.bytes);
            let address = entry.place.address().unwrap_or(0);
            if has_aml(signature)
                && (signature == Signature::DSDT) == is_first
                && (address == 0 || places.from(0, address) == Some((address, number)))
            {
                add_table(number, entry, &mut names, findings);
            }
        }
    }
    names.sort();
    names
}

/// Adds the objects of a table. A list that ends in what is malformed is found.
fn add_table<'a>(number: usize, entry: &Entry<'a>, names: &mut Names<'a>, findings: &mut Findings) {
    let Some(table) = table_of(entry) else {
        names.are_all = false;
        return;
    };
    if let Some((offset, why)) = names.add_table(number, own_signature(table), table)
        && why.is_malformed()
        && !matches!(entry.status, Status::Refused(_))
    {
        findings.table = number;
        findings.tell(&TABLE_MALFORMED, size(offset), printed(|out| why.print(out)));
    }
}

/// Finds objects that are defined with a name that another one before them has, but not those that are in such an
/// object.
fn check_twice(machine: &Machine<'_>, names: &Names<'_>, findings: &mut Findings) {
    let mut twice = Numbers::new();
    twice.all.extend(names.keys.all.windows(2).filter(|pair| pair[0].1 == pair[1].1).map(|pair| pair[1]));
    for (_, key, number) in &twice.all {
        let (Some(first), it) = (names.find(*key), &names.all[*number]) else {
            continue;
        };
        if twice.has(0, it.scope) {
            continue;
        }
        findings.table = it.table;
        let signature = own_signature(machine.entries[first.table].bytes).to_bytes();
        let of = if first.table == it.table { String::new() } else { format!(" of the {}", signature.escape_ascii()) };
        let message = format!("{} is also at {:#x}{of}", path_text(names.path(it)), first.offset);
        findings.tell(&AML_TWICE, it.offset, message);
    }
}

fn path_text(segments: &[u8]) -> String {
    printed(|out| print_path(segments, out))
}

/// The elements of a package that are set, each with how many bytes of the package there are from it on.
fn elements_in(data: &[u8]) -> Option<impl Iterator<Item = (&[u8], usize)>> {
    let (_, mut rest) = elements_of(data)?;
    Some(std::iter::from_fn(move || {
        let ((element, others), left) = (next_element(rest)?, rest.len());
        rest = others;
        (!element.is_empty()).then_some((element, left))
    }))
}
