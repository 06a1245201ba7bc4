//! The program by the checks of scripts/check, which explain what they try: with overflow checks, as cargo tests it.

use std::path::{Path, PathBuf};
use std::process::Command;

/// acpi_view, which some runs read an image by: the one that $ACPI_VIEW names, or that is built beside the program, as
/// cargo does at the workspace's root.
fn built_view() -> PathBuf {
    if let Some(view) = std::env::var_os("ACPI_VIEW") {
        return PathBuf::from(view);
    }
    let view = Path::new(env!("CARGO_BIN_EXE_acpi_dump")).with_file_name("acpi_view");
    if view.exists() {
        return view;
    }
    let mut cargo = Command::new(env!("CARGO"));
    cargo.args(["build", "-q", "-p", "acpi_programs", "--bin", "acpi_view", "--target-dir"]);
    cargo.arg(view.ancestors().nth(2).expect("it is in a profile's folder")).current_dir(env!("CARGO_MANIFEST_DIR"));
    cargo.args(view.parent().filter(|folder| folder.ends_with("release")).map(|_| "--release"));
    assert!(cargo.status().is_ok_and(|status| status.success()), "acpi_view isn't built");
    view
}

/// Runs a check over the built program, which has to count no failure. It takes python3.
fn passes(check: &str, words: &[&str]) {
    let top = Path::new(env!("CARGO_MANIFEST_DIR")).join("../..");
    let mut command = Command::new("python3");
    command.arg("-B").arg(top.join("scripts/check").join(check)).args(words).env("ACPI_VIEW", built_view());
    let ran = command.env("ACPI_DUMP", env!("CARGO_BIN_EXE_acpi_dump")).output().expect("python3 runs");
    let printed = String::from_utf8_lossy(&ran.stdout);
    let last = printed.lines().last().unwrap_or_default();
    assert!(ran.status.success() && last.ends_with(" passed, 0 failed"), "{printed}{:?}", ran.stderr);
}

/// tests/runs: both outputs, the status and the disk.
#[test]
fn runs() {
    passes("programs", &["acpi_dump"]);
}

/// tests/checks: what each rule finds.
#[test]
fn rules() {
    passes("rules", &[]);
}

/// Documents, reports, files, and 30 damaged inputs of each kind, chosen by a seed.
#[test]
fn documents_and_damaged_inputs() {
    passes("dump", &["30"]);
}

/// tests/pages, and hostile texts.
#[test]
fn pages() {
    passes("html", &[]);
}

#[test]
#[cfg(feature = "fleet")]
fn fleets() {
    passes("fleet", &[env!("CARGO_BIN_EXE_acpi_dump")]);
}
