//! What the arguments ask for.

use super::arguments::Arguments;
use super::usage::Wrong;
use super::wanted::Wanted;
use crate::check::rules::{Rule, Severity, rule_of};
use crate::prelude::*;
use acpi_programs::cli::parse_address;
use acpi_programs::cli::root::{Root, parse_root};
use acpi_programs::input::kind::{Kind, parse_kind};
use acpi_programs::input::read::Reading;

/// The part of an input that is shown.
#[derive(Clone, Copy, PartialEq)]
pub(crate) enum View {
    /// A line for each table.
    Lines,
    /// The contents of the tables that are chosen.
    Tables,
    /// Single values of tables.
    Values,
    /// The RSDPs that there are.
    Candidates,
    Summary,
    /// What differs between two inputs.
    Differences,
    /// Each table as a file.
    Files,
    /// What rules find.
    Findings,
    Rules,
    Page,
}

#[derive(Clone, Copy)]
pub(crate) enum Color {
    Auto,
    Always,
    Never,
}

/// What the findings of rules are printed as.
#[derive(Clone, Copy)]
pub(crate) enum Format {
    /// A line for each.
    Lines,
    Sarif,
    Junit,
}

/// The order in which findings are printed.
#[derive(Clone, Copy)]
pub(crate) enum Order {
    Tables,
    Rules,
    /// The worst first.
    Severities,
}

/// The form in which the tables of a signature are shown.
#[derive(Clone, Copy, PartialEq)]
pub(crate) enum Contents {
    Fields,
    /// By their fields, and AML by its operations.
    Code,
    Bytes,
    /// By their bytes, in the text of acpidump.
    Dumped,
}

/// The tables of a signature, or all of them, and the form in which they are shown.
#[derive(Clone, Copy)]
pub(crate) struct Choice {
    pub(crate) signature: Option<Signature>,
    pub(crate) contents: Contents,
}

pub(crate) struct Request<'w> {
    pub(crate) arguments: &'w Arguments,
    /// The names of what is read.
    pub(crate) inputs: Vec<&'w str>,
    pub(crate) reading: Reading,
    /// The way to the root table, if it is said.
    pub(crate) start: Option<Root>,
    pub(crate) view: View,
    /// The tables whose contents are shown, in this order.
    pub(crate) choices: Vec<Choice>,
    /// The values that are shown, in this order, each with its word.
    pub(crate) wanted: Vec<(&'w str, Wanted<'w>)>,
    /// The folder in which each table is to be a file.
    pub(crate) folder: Option<&'w str>,
    /// The file that a page is to be.
    pub(crate) page: Option<&'w str>,
    /// The names of fields that are left out of what differs.
    pub(crate) ignored: Vec<&'w str>,
    /// The least severity of what rules find that is shown, and that makes the status 4, if it is said.
    pub(crate) least: Option<Severity>,
    /// The file of an earlier check's findings, which are left out.
    pub(crate) baseline: Option<&'w str>,
    /// The file of lines that accept findings, which are left out.
    pub(crate) accepted: Option<&'w str>,
    /// The rule that is shown in place of all.
    pub(crate) rule: Option<&'static Rule>,
    pub(crate) format: Format,
    pub(crate) order: Order,
    pub(crate) color: Color,
}

const ORDERS: [(&str, Order); 3] = [("table", Order::Tables), ("rule", Order::Rules), ("severity", Order::Severities)];

const COLORS: [(&str, Color); 3] = [("auto", Color::Auto), ("always", Color::Always), ("never", Color::Never)];

const ONE_VIEW: &str = "[--table SIG].. [--hex SIG].. | --get VALUE.. | --text [--table SIG].. | \
     --extract DIR [--table SIG].. | [--check] --html FILE | --summary | --find | \
     --compare [--html FILE] | --check | --rules";

fn is_rsdp(signature: Signature) -> bool {
    signature.to_bytes() == *b"RSD "
}

/// A signature in either case: four bytes, in upper case if no table has lower-case letters. `all` is none.
pub(crate) fn parse_signature(word: &str) -> Option<Option<Signature>> {
    Some(match (word.to_ascii_lowercase().as_str(), word.as_bytes()) {
        ("all", _) => None,
        ("madt", _) => Some(Signature::MADT),
        ("fadt", _) => Some(Signature::FADT),
        ("rsdp", _) => Some(Signature::from_bytes(*b"RSD ")),
        (_, bytes) => Some(Signature::from_bytes(bytes.try_into().ok()?)),
    })
}

/// The value that the word of an option has, if it is there.
fn parsed<T>(option: &str, word: Option<&str>, parse: impl FnOnce(&str) -> Option<T>) -> Result<Option<T>, Wrong> {
    let Some(word) = word else {
        return Ok(None);
    };
    parse(word).map(Some).ok_or_else(|| Wrong::option(option, word))
}

fn one_of<T: Copy>(option: &str, word: Option<&str>, values: [(&str, T); 3]) -> Result<T, Wrong> {
    let find = |word: &str| values.iter().find(|(name, _)| *name == word).map(|(_, value)| *value);
    Ok(parsed(option, word, find)?.unwrap_or(values[0].1))
}

fn name<'w>(option: &str, word: Option<&'w str>) -> Result<Option<&'w str>, Wrong> {
    match word {
        Some("") => Err(Wrong::option(option, "")),
        _ => Ok(word),
    }
}

fn texts(words: &[String]) -> Vec<&str> {
    words.iter().map(String::as_str).collect()
}

impl<'w> Request<'w> {
    /// The request that arguments make.
    ///
    /// Fails with the first mistake in this order: the words of options but those of `--get`, the choices, the views
    /// with the words of `--get`, and the way to the root table.
    pub(crate) fn of(arguments: &'w Arguments) -> Result<Request<'w>, Wrong> {
        let lettered = |word: &'w Option<String>| word.as_deref().filter(|word| !word.is_empty());
        let least = parsed("check", lettered(&arguments.check), Severity::read)?;
        let find_rule = |word| rule_of(word).ok_or_else(|| Wrong::rule(word));
        let rule = lettered(&arguments.rules).map(find_rule).transpose()?;
        let reading = Reading {
            kind: parsed("as", arguments.kind.as_deref(), parse_kind)?,
            at: parsed("at", arguments.at.as_deref(), parse_address)?,
            most: parsed("max-bytes", arguments.max_bytes.as_deref(), |word| word.parse().ok())?.unwrap_or(1 << 30),
        };
        let start = |word: &str| parse_root(&word.splitn(3, ':').collect::<Vec<_>>());
        let mut request = Request {
            arguments,
            least,
            rule,
            reading,
            start: parsed("start", arguments.start.as_deref(), start)?,
            folder: name("extract", arguments.extract.as_deref())?,
            page: name("html", arguments.html.as_deref())?,
            baseline: name("baseline", arguments.baseline.as_deref())?,
            accepted: name("ignore-rules", arguments.ignore_rules.as_deref())?,
            format: parsed("format", arguments.format.as_deref(), parse_format)?.unwrap_or(Format::Lines),
            order: one_of("sort", arguments.sort.as_deref(), ORDERS)?,
            color: one_of("color", arguments.color.as_deref(), COLORS)?,
            view: View::Lines,
            choices: Vec::new(),
            wanted: Vec::new(),
            inputs: texts(&arguments.input),
            ignored: texts(&arguments.ignore),
        };
        request.add_contents()?;
        request.add_view()?;
        request.take_root()?;
        Ok(request)
    }

    /// Adds the tables whose contents are chosen: in acpidump's text all of them, unless some are named.
    fn add_contents(&mut self) -> Result<(), Wrong> {
        let Arguments { table, hex, text, code, .. } = self.arguments;
        let (of_table, of_hex) = match (text, code) {
            (true, _) => (Contents::Dumped, Contents::Dumped),
            (false, true) => (Contents::Code, Contents::Bytes),
            (false, false) => (Contents::Fields, Contents::Bytes),
        };
        for (option, words, contents) in [("table", table, of_table), ("hex", hex, of_hex)] {
            for word in words {
                let signature = parse_signature(word).ok_or_else(|| Wrong::option(option, word))?;
                self.choices.push(Choice { signature, contents });
            }
        }
        if *text && self.choices.is_empty() {
            self.choices.push(Choice { signature: None, contents: Contents::Dumped });
        }
        Ok(())
    }

    pub(crate) fn names_rsdp(&self) -> bool {
        self.choices.iter().any(|choice| choice.signature.is_some_and(is_rsdp))
            || self.wanted.iter().any(|(_, wanted)| is_rsdp(wanted.signature))
    }

    /// Takes a view, which has to be the only one, if it is requested.
    fn take_view(&mut self, view: View, is_requested: bool) -> Result<(), Wrong> {
        match self.view {
            _ if !is_requested => {}
            View::Lines => self.view = view,
            _ => return Err(Wrong::words("two views", ONE_VIEW)),
        }
        Ok(())
    }

    /// Adds the view that the options ask for, of which at most one kind may be there.
    fn add_view(&mut self) -> Result<(), Wrong> {
        let Arguments { text, hex, json, summary, find, compare, check, rules, get, fleet, .. } = self.arguments;
        if *fleet {
            return Err(Wrong::option("fleet", "this program is built without fleets"));
        }
        let are_files = self.folder.is_some() && hex.is_empty();
        self.take_view(View::Tables, !self.choices.is_empty() && (!are_files || *text))?;
        self.take_view(View::Summary, *summary)?;
        self.take_view(View::Candidates, *find)?;
        self.take_view(View::Differences, *compare)?;
        self.take_view(View::Rules, rules.is_some())?;
        for word in get {
            self.wanted.push((word, Wanted::read(word).ok_or_else(|| Wrong::option("get", word))?));
        }
        self.take_view(View::Values, !get.is_empty())?;
        self.take_view(View::Files, self.folder.is_some())?;
        self.take_view(View::Findings, check.is_some())?;
        let has_own_page = matches!(self.view, View::Differences | View::Findings);
        self.take_view(View::Page, self.page.is_some() && !has_own_page)?;
        if *json && (*text || self.folder.is_some() || self.page.is_some()) {
            return Err(Wrong::option("json", "--text, --extract and --html have no document"));
        }
        self.check_places()
    }

    /// Fails with the first option that is there without the view that it is for.
    fn check_places(&self) -> Result<(), Wrong> {
        let Arguments { table, text, json, code, force, base, alike, format, sort, exit_code, .. } = self.arguments;
        let (is_checked, is_compared) = (self.view == View::Findings, self.view == View::Differences);
        let are_saved = self.folder.is_some() || self.page.is_some();
        let are_listed = self.view == View::Tables && !table.is_empty() && !text;
        let are_lines = is_checked && self.page.is_none() && !json;
        let (of_check, of_compare, of_fleet) = ("it is for --check", "it is for --compare", "it is for --fleet");
        let options = [
            ("code", *code, are_listed, "it is for --table, without --text"),
            ("ignore", !self.ignored.is_empty(), is_compared, of_compare),
            ("exit-code", *exit_code, is_compared, of_compare),
            ("force", *force, are_saved, "it is for --extract and --html"),
            ("base", base.is_some(), false, of_fleet),
            ("alike", *alike, false, of_fleet),
            ("baseline", self.baseline.is_some(), is_checked, of_check),
            ("ignore-rules", self.accepted.is_some(), is_checked, of_check),
            ("format", format.is_some(), are_lines, "it is for --check, without --html or --json"),
            ("sort", sort.is_some(), is_checked, of_check),
        ];
        match options.iter().find(|(_, is_there, has_view, _)| *is_there && !has_view) {
            Some((option, .., why)) => Err(Wrong::option(option, why)),
            None => Ok(()),
        }
    }

    /// Takes the words after an image as a way to the root table, in place of more inputs, if they are to be one.
    fn take_root(&mut self) -> Result<(), Wrong> {
        let [_, root @ ..] = self.inputs.as_slice() else {
            return Ok(());
        };
        let [form @ ("rsdt" | "rsdp" | "bios"), ..] = root else {
            return Ok(());
        };
        let usage = "IMAGE rsdt REVISION ADDRESS | rsdp ADDRESS | bios";
        self.start = Some(parse_root(root).ok_or_else(|| Wrong::words(form, usage))?);
        self.inputs.truncate(1);
        if self.reading.kind.is_none() && self.reading.at.is_none() {
            self.reading.kind = Some(Kind::Image);
        }
        Ok(())
    }
}

fn parse_format(word: &str) -> Option<Format> {
    match word {
        "sarif" => Some(Format::Sarif),
        "junit" => Some(Format::Junit),
        _ => None,
    }
}
