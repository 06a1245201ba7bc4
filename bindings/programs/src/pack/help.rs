// Made by scripts/erase of crates/acpi_pack_lib/src/help.rt, where it is proved.
//! The help and the version that the program prints.

/// The line on how the program packs.
pub(crate) const USAGE: &str =
    "usage: acpi_pack [--fix-checksum] [--raw] OUT memory ADDRESS FILE [ADDRESS FILE]... | tables FILE...\n";

/// The text on how the program is called.
const HELP: &str =
    "usage: acpi_pack [--fix-checksum] [--raw] OUT memory ADDRESS FILE [ADDRESS FILE]... | tables FILE...
       acpi_pack --help | --version
";

/// The text with the program's version.
const VERSION: &str = "acpi_pack 1.0.0\n";

/// The text that an argument requests, or `None` if it requests none.
fn text_of_argument(argument: &str) -> Option<&'static str> {
    match argument {
        "--help" => Some(HELP),
        "--version" => Some(VERSION),
        _ => None,
    }
}

/// The text that arguments request, or `None` if they request none: how the program is called for `--help`
/// alone, and its version for `--version` alone.
pub(crate) fn help_or_version(arguments: &[&str]) -> Option<&'static str> {
    match arguments {
        [argument] => text_of_argument(argument),
        _ => None,
    }
}
