//! Writes what completes the options of acpi_dump in shells to a folder, by `clap_complete`. docs/completions is one.
use clap::ValueHint;
use clap_complete::Shell;
use std::path::PathBuf;

/// The signatures of the tables whose fields are known (crates/acpi_dump_walk/src/layouts).
const SIGNATURES: &[&str] = &[
    "all", "AEST", "AGDI", "APIC", "APMT", "ASF!", "ASPT", "BDAT", "BERT", "BGRT", "BOOT", "CCEL", "CEDT", "CPEP",
    "CRAT", "CSRT", "DBG2", "DBGP", "DMAR", "DRTM", "DSDT", "DTPR", "ECDT", "EINJ", "ERDT", "ERST", "FACP", "FACS",
    "FPDT", "GTDT", "HEST", "HMAT", "HPET", "IBFT", "IORT", "IOVT", "IVRS", "KEYP", "LPIT", "MCFG", "MCHI", "MISC",
    "MPAM", "MPST", "MRRM", "MSCT", "MSDM", "MTMR", "NBFT", "NFIT", "NHLT", "PCCT", "PDTT", "PHAT", "PMTT", "PPTT",
    "PRMT", "RAS2", "RASF", "RGRT", "RHCT", "RIMT", "RSDP", "RSDT", "SBST", "SDEI", "SDEV", "SLIC", "SLIT", "SPCR",
    "SPMI", "SRAT", "SSDT", "STAO", "SVKL", "SWFT", "TCPA", "TDEL", "TPM2", "UEFI", "VFCT", "VIOT", "VRTC", "WAET",
    "WDAT", "WDDT", "WDRT", "WPBT", "WSMT", "XENV", "XSDT",
];

/// What the values of options are: words for some, and files and folders.
const WORDS: [(&str, &[&str]); 7] = [
    ("as", &["image", "memory", "text", "table"]),
    ("table", SIGNATURES),
    ("hex", SIGNATURES),
    ("check", &["error", "warning", "note"]),
    ("format", &["sarif", "junit"]),
    ("sort", &["table", "rule", "severity"]),
    ("color", &["auto", "always", "never"]),
];
const HINTS: [(&str, ValueHint); 6] = [
    ("extract", ValueHint::DirPath),
    ("html", ValueHint::FilePath),
    ("baseline", ValueHint::FilePath),
    ("ignore-rules", ValueHint::FilePath),
    ("base", ValueHint::AnyPath),
    ("input", ValueHint::AnyPath),
];

fn main() -> std::io::Result<()> {
    let folder = PathBuf::from(std::env::args_os().nth(1).unwrap_or_else(|| ".".into()));
    let mut command = acpi_dump::options().no_binary_name(false);
    for (option, words) in WORDS {
        command = command.mut_arg(option, |arg| arg.value_parser(words.to_vec()));
    }
    let names = acpi_dump::rules();
    // Of these the value may be missing. What stands for it then has to be a word, and no shell completes it.
    command = command.mut_arg("check", |arg| arg.default_missing_value("note"));
    command = command.mut_arg("rules", |arg| arg.value_parser(names).default_missing_value("header-sum"));
    command = command.mut_arg("input", |arg| arg.num_args(1..));
    for (option, hint) in HINTS {
        command = command.mut_arg(option, |arg| arg.value_hint(hint));
    }
    for shell in [Shell::Bash, Shell::Zsh, Shell::Fish, Shell::PowerShell] {
        clap_complete::generate_to(shell, &mut command, "acpi_dump", &folder)?;
    }
    Ok(())
}
