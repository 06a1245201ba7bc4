//! Fleets: many machines, of which each is read, told apart by what its tables contain, and compared with one of them.
//!
//! What reads the bytes of tables is the made code. A machine's tables are kept only as long as it is looked at; what
//! stays of it are its name and the number of its group, and of each group a sum for each table.

mod differences;
mod machines;
mod progress;
mod report;
mod sources;
mod sums;

use crate::dump::arguments::Arguments;
use machines::{Machine, paths_of, read_machine};
use progress::Progress;
use report::{Style, print};
use std::collections::HashMap;
use std::io::Write;
use sums::{Sum, Sums};

/// The names of fields that differ between machines of one kind: addresses that firmware chooses, sums, versions of
/// makers, serial numbers and product keys.
const MAY_DIFFER: [&str; 22] = [
    "Checksum",
    "Extended Checksum",
    "OEM Revision",
    "Creator Revision",
    "Entry",
    "RsdtAddress",
    "XsdtAddress",
    "FIRMWARE_CTRL",
    "DSDT",
    "X_FIRMWARE_CTRL",
    "X_DSDT",
    "Hardware Signature",
    "Firmware Waking Vector",
    "X Firmware Waking Vector",
    "Serial Number",
    "Software Licensing",
    "Image Address",
    "Log Area Start Address (LASA)",
    "Address of Control Area",
    "Boot Error Region",
    "Error Status Address",
    "Physical Address",
];

/// The options beside which --fleet may be.
const BESIDE: [&str; 9] = ["fleet", "input", "base", "alike", "ignore", "json", "strict", "exit-code", "max-bytes"];

/// What is requested of a fleet.
pub(crate) struct Request<'w> {
    base: Option<&'w str>,
    /// The names of the fields that are left out.
    ignored: Vec<&'w str>,
    /// How many bytes an input has at most.
    most: u64,
}

/// Machines whose tables are the same but for what is left out.
struct Group {
    machines: Vec<usize>,
    sums: Vec<Sum>,
}

/// What was read of a machine: its group and how many tables it has, and of these are invalid, or why it can't be read.
struct Member {
    name: String,
    found: Result<(usize, usize, usize), String>,
}

/// The machines, and their groups in the order of the first machine of each.
#[derive(Default)]
struct Fleet {
    members: Vec<Member>,
    groups: Vec<Group>,
    known: HashMap<Vec<Sum>, usize>,
}

impl Fleet {
    fn add(&mut self, name: String, read: Result<Machine, String>, sums: &mut Sums) {
        let found = read.map(|machine| {
            let (of_machine, invalid) = sums.of(&machine);
            let tables = of_machine.len();
            let group = *self.known.entry(of_machine.clone()).or_insert_with(|| {
                self.groups.push(Group { machines: Vec::new(), sums: of_machine });
                self.groups.len() - 1
            });
            self.groups[group].machines.push(self.members.len());
            (group, tables, invalid)
        });
        self.members.push(Member { name, found });
    }

    /// The groups, the largest first: of equal ones that of the earliest machine.
    fn ranked(&self) -> Vec<usize> {
        let mut order: Vec<usize> = (0..self.groups.len()).collect();
        order.sort_by_key(|group| std::cmp::Reverse(self.groups[*group].machines.len()));
        order
    }
}

fn usage(option: &str, why: &str) -> u8 {
    eprintln!("acpi_dump: --{option}: {why}");
    eprintln!("usage: --fleet INPUT.. [--base INPUT] [--alike] [--ignore FIELD].. [--json]");
    2
}

pub(crate) fn run(arguments: &Arguments) -> u8 {
    if let Some(other) = arguments.names.iter().find(|name| !BESIDE.contains(&name.as_str())) {
        return usage(other, "it isn't for --fleet");
    }
    let most = match arguments.max_bytes.as_deref().map(str::parse) {
        None => 1 << 30,
        Some(Ok(most)) => most,
        Some(Err(_)) => return usage("max-bytes", "NUMBER, in decimal digits"),
    };
    let mut ignored: Vec<_> = arguments.ignore.iter().map(String::as_str).collect();
    if arguments.alike {
        ignored.extend(MAY_DIFFER);
    }
    let request = Request { base: arguments.base.as_deref(), ignored, most };
    let style = if arguments.json { Style::Json } else { Style::Text };
    let mut out = std::io::BufWriter::new(acpi_programs::rattle::HostRuntime::new().stdout());
    let printed = gather_and_print(arguments, &request, style, &mut out);
    match printed.and_then(|status| out.flush().map(|()| status)) {
        Ok(status) => status,
        Err(error) => {
            eprintln!("acpi_dump: standard output: {error}");
            1
        }
    }
}

/// Reads the machines, and prints what is requested of them.
fn gather_and_print(
    arguments: &Arguments,
    request: &Request<'_>,
    style: Style,
    out: &mut impl Write,
) -> std::io::Result<u8> {
    let (mut fleet, mut sums) = (Fleet::default(), Sums::new(&request.ignored));
    let paths = paths_of(&arguments.input);
    let mut progress = Progress::new(paths.len());
    for path in paths {
        let read = path.why.map_or_else(|| read_machine(&path.name, request.most), Err);
        fleet.add(path.name, read, &mut sums);
        progress.step();
    }
    progress.end();
    if fleet.members.is_empty() {
        return Ok(usage("fleet", "no machine is named, or none is in the folders"));
    }
    let has_base = print(&fleet, request, &mut sums, style, out)?;
    let is_incomplete = !has_base || fleet.members.iter().any(|member| member.found.is_err());
    let is_invalid = fleet.members.iter().any(|member| matches!(member.found, Ok((_, _, 1..))));
    Ok(match () {
        () if is_incomplete || arguments.exit_code && fleet.groups.len() > 1 => 1,
        () if arguments.strict && is_invalid => 3,
        () => 0,
    })
}
