//! What rules are, and what they find.

use crate::check::subjects;

/// How much it matters what a rule finds.
#[derive(Clone, Copy, PartialEq, Eq, PartialOrd, Ord)]
pub enum Severity {
    /// The table is unusual, or leaves something out.
    Note,
    /// The tables contradict themselves or the specification.
    Warning,
    /// The firmware is wrong, and a kernel will do wrong by it.
    Error,
}

impl Severity {
    pub fn read(word: &str) -> Option<Severity> {
        [Severity::Note, Severity::Warning, Severity::Error].into_iter().find(|severity| severity.word() == word)
    }

    pub fn word(self) -> &'static str {
        match self {
            Severity::Note => "note",
            Severity::Warning => "warning",
            Severity::Error => "error",
        }
    }
}

/// A rule.
pub struct Rule {
    pub id: &'static str,
    pub severity: Severity,
    /// The specification and the section, such as `ACPI 6.5, section 5.2.12`.
    pub section: &'static str,
    /// What it finds.
    pub what: &'static str,
    /// The message of a finding, as `Out::words` prints it, or no letters if code makes the message.
    pub message: &'static str,
    /// What to do about what it finds: which field to correct, and to what, or why an operating system minds.
    pub advice: &'static str,
}

/// Something that a rule finds.
#[derive(Clone)]
pub struct Finding {
    pub rule: &'static Rule,
    /// The number of its table among the entries.
    pub table: usize,
    /// The offset in the table.
    pub offset: usize,
    /// The name of the field there, or no letters if there is none.
    pub field: &'static str,
    pub message: String,
}

/// How many findings of each severity there are from one on, notes first.
pub fn counts_of(findings: &[Finding], least: Severity) -> [usize; 3] {
    [Severity::Note, Severity::Warning, Severity::Error].map(|severity| {
        findings.iter().filter(|finding| finding.rule.severity == severity && severity >= least).count()
    })
}

/// The rules of a subject, each as `NAME = SEVERITY ID, SECTION, WHAT, MESSAGE, ADVICE;`: an item of this name, by which
/// code adds what the rule finds, and one of `RULES`.
macro_rules! rules {
    ($($name:ident = $severity:ident $id:literal, $section:literal, $what:literal, $message:literal, $advice:literal;)*) => {
        $(pub(crate) static $name: $crate::check::rules::Rule = $crate::check::rules::Rule {
            id: $id,
            severity: $crate::check::rules::Severity::$severity,
            section: $section,
            what: $what,
            message: $message,
            advice: $advice,
        };)*
        pub(crate) static RULES: &[&$crate::check::rules::Rule] = &[$(&$name),*];
    };
}

pub(crate) use rules;

pub fn all() -> impl Iterator<Item = &'static Rule> {
    subjects().into_iter().flatten().copied()
}

/// The rule of an id, or `None` if no rule has it.
pub fn rule_of(id: &str) -> Option<&'static Rule> {
    all().find(|rule| rule.id == id)
}
