//! What is printed of a word that an option can't have.

use crate::check::rules;
use crate::prelude::*;

/// What is wrong with arguments, as it is printed.
pub(crate) struct Wrong(pub(crate) String);

fn usage_of(option: &str) -> &'static str {
    match option {
        "as" => "image | memory | text | table",
        "at" => "ADDRESS, which is 0x and one to sixteen hexadecimal digits",
        "start" => "rsdt:REVISION:ADDRESS | rsdp:ADDRESS | bios",
        "table" | "hex" => "SIG, four letters of either case, or all",
        "get" => "SIG.FIELD | SIG.ENTRY.FIELD | SIG:OBJECT, as FACP.SCI_INT",
        "extract" => "DIR, the name of a folder",
        "html" => "FILE, the name of a file",
        "check" => "error | warning | note",
        "baseline" | "ignore-rules" => "FILE --check[=SEVERITY]",
        "format" => "sarif | junit, with --check",
        "sort" => "table | rule | severity, with --check",
        "rules" => "RULE, one of those that --rules lists",
        "code" => "--table SIG, without --text and --extract",
        "force" => "with --extract DIR | --html FILE",
        "ignore" => "FIELD --compare A B",
        "fleet" => "INPUT.. [--base INPUT] [--alike] [--ignore FIELD].. [--json]",
        "base" | "alike" => "--fleet INPUT..",
        "exit-code" => "--compare A B",
        "compare" => "A B",
        "json" => "[--table SIG].. [--hex SIG].. | --get VALUE.. | --summary | --find | --compare | --check | --rules",
        "max-bytes" => "NUMBER, in decimal digits",
        "color" => "auto | always | never",
        _ => "",
    }
}

/// A text with each byte that isn't printable ASCII as `\x1b`.
fn plain(text: &str) -> String {
    printed(|out| out.escaped(text.as_bytes()))
}

impl Wrong {
    pub(crate) fn option(option: &str, word: &str) -> Wrong {
        Wrong::value(option, word, usage_of(option))
    }

    fn value(option: &str, word: &str, usage: &str) -> Wrong {
        Wrong(format!("acpi_dump: --{option}: {}\nusage: --{option} {usage}\n", plain(word)))
    }

    pub(crate) fn words(words: &str, usage: &str) -> Wrong {
        Wrong(format!("acpi_dump: {}\nusage: acpi_dump {usage}\n", plain(words)))
    }

    /// A word names no rule. If some are like it, as far as they begin like it, it lists these.
    pub(crate) fn rule(word: &str) -> Wrong {
        // The letters of the shortest table's name.
        const LEAST: usize = 3;
        let alike = |id: &str| id.bytes().zip(word.bytes()).take_while(|(a, b)| a == b).count();
        let most = rules::all().map(|rule| alike(rule.id)).max().unwrap_or(0).max(LEAST);
        let names: Vec<_> = rules::all().map(|rule| rule.id).filter(|id| alike(id) == most).collect();
        if names.is_empty() { Wrong::option("rules", word) } else { Wrong::value("rules", word, &names.join(" | ")) }
    }
}
