//! All views of an input, for tests and for cargo-fuzz.

use acpi_dump::printed_of;

const IMAGE: &str = concat!(env!("CARGO_MANIFEST_DIR"), "/data/q35.image");

/// The words of each view.
const VIEWS: [&[&str]; 20] = [
    &[],
    &["--json"],
    &["--table", "all"],
    &["--table", "all", "--json"],
    &["--table", "all", "--code"],
    &["--table", "all", "--code", "--json"],
    &["--hex", "all"],
    &["--hex", "all", "--json"],
    &["--text"],
    &["--get", "FACP.SCI_INT,APIC.0.Type,DSDT:\\_SB.PCI0._HID"],
    &["--get", "FACP.SCI_INT,APIC.0.Type,DSDT:\\_SB.PCI0._HID", "--json"],
    &["--summary"],
    &["--summary", "--json"],
    &["--find", "--json"],
    &["--check"],
    &["--check", "--json"],
    &["--check", "--format", "sarif"],
    &["--check", "--format", "junit"],
    &["--check", "--html", "-"],
    &["--compare", "--json", IMAGE],
];

/// Runs each view over an input that words describe. None panics, documents are JSON, and nothing is printed that a
/// terminal would obey, as far as it isn't in the input.
pub fn show_all(kind: &[&str], input: &[u8]) {
    for view in VIEWS {
        let words: Vec<&str> = [view, &["-"], kind].concat();
        let printed = printed_of(&words, input);
        if view.contains(&"--json") || view.contains(&"sarif") {
            let is_json = printed.is_empty() || serde_json::from_str::<serde_json::Value>(&printed).is_ok();
            assert!(is_json, "{words:?}: no JSON: {printed}");
        }
        let is_plain = |letter: char| letter == '\n' || letter == '\t' || !letter.is_ascii_control();
        assert!(printed.chars().all(is_plain), "{words:?}: {printed:?}");
    }
}
