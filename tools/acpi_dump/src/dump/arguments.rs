//! The words after the program's name, by the crate `clap`, which finds which are options, and what is wrong with them.
//! The texts are made here, since each version of it has other words.

use clap::error::{ContextKind, ContextValue, ErrorKind};
use clap::{Arg, ArgAction, Command, CommandFactory, FromArgMatches, Parser};

/// Shows ACPI tables
#[derive(Parser, Default)]
#[command(name = "acpi_dump", version, after_help = AFTER, no_binary_name = true)]
#[group(skip)]
#[command(disable_help_flag = true, disable_version_flag = true)]
pub(crate) struct Arguments {
    /// Files of tables, a folder of them, acpidump's or acpiview's text, an image of acpi_pack, raw memory, or - for
    /// standard input; without one the machine's own tables
    #[arg(value_name = "INPUT", num_args = 1)]
    pub(crate) input: Vec<String>,
    /// What the input is: image, memory, text or table
    #[arg(id = "as", long = "as", value_name = "KIND")]
    pub(crate) kind: Option<String>,
    /// The address of raw memory's first byte
    #[arg(long, value_name = "ADDRESS")]
    pub(crate) at: Option<String>,
    /// The way to the root table: rsdt:REVISION:ADDRESS, rsdp:ADDRESS or bios
    #[arg(long, value_name = "START")]
    pub(crate) start: Option<String>,
    /// The fields of the tables of a signature, or of all
    #[arg(long, short, value_name = "SIG", value_delimiter = ',')]
    pub(crate) table: Vec<String>,
    /// The bytes of the tables of a signature, or of all
    #[arg(long, value_name = "SIG", value_delimiter = ',')]
    pub(crate) hex: Vec<String>,
    /// With --table: the operations of AML, one a line
    #[arg(long)]
    pub(crate) code: bool,
    /// One value a line, for scripts: SIG.FIELD, SIG.ENTRY.FIELD or SIG:OBJECT
    #[arg(long, value_name = "VALUE", value_delimiter = ',')]
    pub(crate) get: Vec<String>,
    /// The text of acpidump, of all tables or of those of --table
    #[arg(long)]
    pub(crate) text: bool,
    /// Each table, or those of --table, as a file in this folder: SIG.dat, or SIG1.dat and so on
    #[arg(long, short = 'o', value_name = "DIR")]
    pub(crate) extract: Option<String>,
    /// A page of all of it: the machine drawn, what rules find, and each table's fields beside its bytes; - prints it
    #[arg(long, value_name = "FILE")]
    pub(crate) html: Option<String>,
    /// Files of --extract and --html replace those that are there
    #[arg(long)]
    pub(crate) force: bool,
    /// The machine in short
    #[arg(long)]
    pub(crate) summary: bool,
    /// Every RSDP in memory, valid or not
    #[arg(long)]
    pub(crate) find: bool,
    /// What rules find wrong: all, or only what is an error, a warning or worse, or a note or worse
    #[arg(long, value_name = "SEVERITY", num_args = 0..=1, require_equals = true, default_missing_value = "")]
    pub(crate) check: Option<String>,
    /// A document of an earlier --check --json, whose findings are left out
    #[arg(long, value_name = "FILE")]
    pub(crate) baseline: Option<String>,
    /// Findings that are accepted, and left out: lines RULE [SIG [FIELD]] [until DATE]: REASON
    #[arg(id = "ignore-rules", long = "ignore-rules", value_name = "FILE")]
    pub(crate) ignore_rules: Option<String>,
    /// What --check prints in place of lines: sarif or junit
    #[arg(long, value_name = "FORMAT")]
    pub(crate) format: Option<String>,
    /// The order of what --check finds: by table, rule or severity
    #[arg(long, value_name = "KEY")]
    pub(crate) sort: Option<String>,
    /// The rules of --check, or one of them, and what to do about what it finds
    #[arg(long, value_name = "RULE", num_args = 0..=1, default_missing_value = "")]
    pub(crate) rules: Option<String>,
    /// Each input as machines, of which a folder has many: their groups, and what differs
    #[arg(long)]
    pub(crate) fleet: bool,
    /// The machine with which those of --fleet are compared, in place of the largest group's first
    #[arg(long, value_name = "INPUT")]
    pub(crate) base: Option<String>,
    /// Fields that differ between machines of one kind are left out of --fleet: addresses, sums, serial numbers
    #[arg(long)]
    pub(crate) alike: bool,
    /// What differs between two inputs
    #[arg(long, short)]
    pub(crate) compare: bool,
    /// Status 1 if two inputs differ
    #[arg(id = "exit-code", long = "exit-code")]
    pub(crate) exit_code: bool,
    /// Fields that are left out of what differs
    #[arg(long, value_name = "FIELD", value_delimiter = ',')]
    pub(crate) ignore: Vec<String>,
    /// One JSON document of what is shown
    #[arg(long, short)]
    pub(crate) json: bool,
    /// Status 3 if a table is invalid
    #[arg(long)]
    pub(crate) strict: bool,
    /// How many bytes an input has at most: 1073741824 if it isn't said
    #[arg(id = "max-bytes", long = "max-bytes", value_name = "NUMBER")]
    pub(crate) max_bytes: Option<String>,
    /// auto, always or never
    #[arg(long, value_name = "WHEN")]
    pub(crate) color: Option<String>,
    /// The options that there are, and whether there are inputs.
    #[arg(skip)]
    pub(crate) names: Vec<String>,
}

const AFTER: &str = "An image may also be followed by rsdt REVISION ADDRESS, rsdp ADDRESS or bios.
ADDRESS is 0x and one to sixteen hexadecimal digits.
Status: 0 shown, 1 something isn't there or can't be read or written, 2 usage, 3 shown but a table is invalid
(--strict), 4 shown and --check finds an error, or with a severity anything of it or worse.";

/// A text in place of arguments.
pub(crate) enum Refusal {
    /// What is wrong.
    Mistake(String),
    /// The help or the version that the words ask for.
    Asked(String),
}

pub(crate) fn command() -> Command {
    let of = |id: &'static str, letter| Arg::new(id).long(id).short(letter);
    let help = of("help", 'h').action(ArgAction::Help).help("Print help");
    Arguments::command().arg(help).arg(of("version", 'V').action(ArgAction::Version).help("Print version"))
}

impl Arguments {
    pub(crate) fn of(words: &[&str]) -> Result<Arguments, Refusal> {
        let mut command = command();
        command.build();
        let matches = command.try_get_matches_from_mut(words).map_err(|error| told(&command, &error))?;
        let mut arguments = Arguments::from_arg_matches(&matches).map_err(|error| told(&command, &error))?;
        let is_there = |id: &&str| matches.value_source(id) == Some(clap::parser::ValueSource::CommandLine);
        let ids = command.get_arguments().map(|arg| arg.get_id().as_str());
        arguments.names = ids.filter(is_there).map(str::to_string).collect();
        Ok(arguments)
    }
}

fn told(command: &Command, error: &clap::Error) -> Refusal {
    let of = |kind| match error.get(kind) {
        Some(ContextValue::String(text)) => text.clone(),
        Some(ContextValue::StyledStr(text)) => text.to_string(),
        _ => String::new(),
    };
    let (arg, value, mut usage) = (of(ContextKind::InvalidArg), of(ContextKind::InvalidValue), of(ContextKind::Usage));
    let mut tip = String::new();
    let what = match error.kind() {
        ErrorKind::DisplayHelp => return Refusal::Asked(help(command)),
        ErrorKind::DisplayVersion => return Refusal::Asked(command.render_version()),
        ErrorKind::UnknownArgument => {
            if let Some(similar) = arg.strip_prefix("--").and_then(|name| similar(command, name)) {
                tip = format!("\n  tip: a similar argument exists: '--{}'\n", similar.get_long().unwrap_or(""));
                usage = with(&usage, &similar.to_string());
            } else if error.get(ContextKind::Suggested).is_some() {
                tip = format!("\n  tip: to pass '{arg}' as a value, use '-- {arg}'\n");
            }
            format!("unexpected argument '{arg}' found")
        }
        ErrorKind::InvalidValue => format!("a value is required for '{arg}' but none was supplied"),
        ErrorKind::TooManyValues => format!("unexpected value '{value}' for '{arg}' found; no more were expected"),
        ErrorKind::ArgumentConflict => format!("the argument '{arg}' cannot be used multiple times"),
        kind => kind.to_string(),
    };
    let usage = if usage.is_empty() { usage } else { format!("\n{}\n", usage.trim_end()) };
    Refusal::Mistake(format!("{what}\n{tip}{usage}\nFor more information, try '--help'.\n"))
}

/// The usage line with an option among those that it names, before the inputs at its end.
fn with(usage: &str, option: &str) -> String {
    match usage.trim_end().rsplit_once(' ') {
        Some((names, _)) if names.contains(option) => usage.to_string(),
        Some((names, inputs)) => format!("{} {option} {inputs}", names.trim_end_matches(" [OPTIONS]")),
        None => usage.to_string(),
    }
}

/// The option whose name is most like a word's, if one is like it.
fn similar<'c>(command: &'c Command, name: &str) -> Option<&'c Arg> {
    let likeness = |arg: &&Arg| strsim::jaro(name, arg.get_long().unwrap_or(""));
    let alike = command.get_arguments().filter(|arg| likeness(arg) > 0.7);
    alike.max_by(|one, other| likeness(one).total_cmp(&likeness(other)))
}

fn help(command: &Command) -> String {
    let (inputs, options): (Vec<_>, Vec<_>) = command.get_arguments().partition(|arg| arg.is_positional());
    let help_of = |arg: &Arg| arg.get_help().map(ToString::to_string).unwrap_or_default();
    let names = |arg: &Arg| match arg.get_short() {
        Some(letter) => format!("-{letter}, {arg}"),
        None => format!("    {arg}"),
    };
    let width = options.iter().map(|arg| names(arg).len()).max().unwrap_or(0);
    let options = options.iter().map(|arg| format!("  {:width$}  {}\n", names(arg), help_of(arg))).collect::<String>();
    let usage = inputs.iter().map(|arg| format!(" {arg}")).collect::<String>();
    let inputs = inputs.iter().map(|arg| format!("  {arg}  {}\n", help_of(arg))).collect::<String>();
    let about = command.get_about().map(ToString::to_string).unwrap_or_default();
    format!(
        "{about}\n\nUsage: {} [OPTIONS]{usage}\n\nArguments:\n{inputs}\nOptions:\n{options}\n{AFTER}\n",
        command.get_name()
    )
}
