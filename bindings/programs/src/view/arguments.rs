// Made by scripts/erase of crates/acpi_view_lib/src/arguments.rt, where it is proved.
//! The program's arguments: a file, and the way to the root table in it.

use crate::cli::root::{Root, parse_root};

/// The way to the root table that the arguments after the program's name have, or `None` if they are not a
/// command: IMAGE, which may be any text, and the arguments of `parse_root`.
pub fn parse_command(arguments: &[&str]) -> Option<Root> {
    let [_image, rest @ ..] = arguments else {
        return None;
    };
    parse_root(rest)
}

/// The name of the file that is read for these arguments: the first of them, or `None` if they are not a command.
pub fn file_named<'w>(arguments: &[&'w str]) -> Option<&'w str> {
    match (parse_command(arguments), arguments) {
        (Some(_), [image, ..]) => Some(*image),
        _ => None,
    }
}
