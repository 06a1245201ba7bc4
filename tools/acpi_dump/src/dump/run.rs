//! A run of the program.

use super::accepted::Accepted;
use super::arguments::{Arguments, Refusal};
use super::files::Files;
use super::paint::Paint;
use super::request::{Color, Request, View};
use super::usage::Wrong;
use crate::prelude::*;
use acpi_programs::cli::storage::HostStorage;
use acpi_programs::input::extract::Saving;
use acpi_programs::input::gather::{Input, gather};
use acpi_programs::input::sources::{HostSources, Sources, reason_of};
use acpi_programs::rattle::HostRuntime;
use std::io;

/// A run of a request: what it reads from and saves to, and what it prints.
pub(crate) struct Run<'r> {
    pub(crate) request: &'r Request<'r>,
    /// What is left out of what rules find.
    pub(crate) accepted: Accepted<'r>,
    pub(crate) paint: Paint,
    pub(crate) sources: Files<'r>,
    pub(crate) storage: HostStorage<'r>,
    pub(crate) out: &'r mut Out,
    pub(crate) log: &'r mut Log,
}

/// Runs the program on the words after its name, and returns the status: 0 if all is shown, 1 if something that is
/// asked for isn't there or can't be read, or if two inputs differ and `--exit-code` is given, 2 if the words are not a
/// command, 3 if all is shown but a table is invalid and `--strict` is given, and 4 if `--check` finds an error.
///
/// Fails with the error of the first write or flush of standard output, or else of standard error, that fails.
pub fn run(words: &[&str]) -> io::Result<u8> {
    let arguments = Arguments::of(words);
    #[cfg(feature = "fleet")]
    if let Ok(arguments) = &arguments
        && arguments.fleet
    {
        return Ok(crate::fleet::run(arguments));
    }
    let (mut out, mut log) = (Out::new(Global), Log::new(Global));
    let status = print_asked(&arguments, None, &mut out, &mut log);
    if let Err(Stop::OutOfMemory) = status {
        log.text.text("acpi_dump: out of memory\n");
    }
    let shown = out.write_to(HostRuntime::new().stdout());
    if let Err(refusal) = &shown {
        tell(&mut log, "standard output", &reason_of(refusal));
    }
    let logged = log.text.write_to(io::stderr());
    shown.and(logged)?;
    Ok(match status {
        // Something isn't shown.
        Ok(0 | 3 | 4) if log.is_incomplete => 1,
        status => status.unwrap_or(1),
    })
}

/// What a run prints on standard output, where `-` is an input of these bytes.
pub fn printed_of(words: &[&str], input: &[u8]) -> String {
    let mut out = Out::new(Global);
    match print_asked(&Arguments::of(words), Some(input), &mut out, &mut Log::new(Global)) {
        Ok(_) | Err(_) => text_of(&out).to_string(),
    }
}

/// Prints what arguments ask for, or what is wrong with them.
fn print_asked(
    arguments: &Result<Arguments, Refusal>,
    input: Option<&[u8]>,
    out: &mut Out,
    log: &mut Log,
) -> Result<u8, Stop> {
    match arguments {
        Ok(arguments) => match Request::of(arguments) {
            Ok(request) => print_requested(&request, input, out, log),
            Err(Wrong(text)) => {
                log.text.text(&text);
                Ok(2)
            }
        },
        Err(Refusal::Asked(text)) => {
            out.text(text);
            Ok(0)
        }
        Err(Refusal::Mistake(text)) => {
            log.text.text("acpi_dump: ");
            for line in text.lines() {
                log.text.escaped(line.as_bytes());
                log.text.text("\n");
            }
            Ok(2)
        }
    }
}

fn print_requested(request: &Request<'_>, input: Option<&[u8]>, out: &mut Out, log: &mut Log) -> Result<u8, Stop> {
    let rt = &HostRuntime::new();
    let (mut sources, storage) = (Files { host: HostSources::new(rt), input }, HostStorage::new(rt));
    let is_on = match request.color {
        Color::Auto => sources.takes_color(),
        Color::Always => true,
        Color::Never => false,
    };
    let accepted = Accepted::read(request, &mut sources, log)?;
    let mut run = Run { request, accepted, paint: Paint { is_on }, sources, storage, out, log };
    // No files are saved beside these views but the page of differences.
    match (request.view, request.folder, request.page) {
        (View::Differences, None, page) => {
            let [first, second] = request.inputs[..] else {
                let Wrong(text) = Wrong::option("compare", "it takes two inputs");
                run.log.text.text(&text);
                return Ok(2);
            };
            let (old, new) = (&run.gather(&[first])?, &run.gather(&[second])?);
            return match page {
                Some(file) => run.save_page(file, old, Some(new)),
                None => run.print_compared(old, new),
            };
        }
        (View::Rules, None, None) => return Ok(run.print_rules()),
        _ => {}
    }
    let input = &run.gather(&request.inputs)?;
    if matches!(input, Input::Tables(_)) && request.start.is_some() {
        tell(run.log, run.name(), &"tables, which have no start: --start is for memory");
        return Ok(2);
    }
    match (request.folder, request.page) {
        (Some(folder), _) => run.save_input(folder, input),
        (None, Some(file)) => run.save_page(file, input, None),
        (None, None) => run.print_input(input),
    }
}

impl<'r> Run<'r> {
    fn gather(&mut self, names: &[&str]) -> Result<Input, Stop> {
        gather(Global, names, self.request.reading, &mut self.sources, self.log)
    }

    pub(crate) fn name(&self) -> &'r str {
        self.request.inputs.first().copied().unwrap_or("/sys/firmware/acpi/tables")
    }

    /// The name of the input that it is compared with, or its own.
    pub(crate) fn second_name(&self) -> &'r str {
        self.request.inputs.get(1).copied().unwrap_or(self.name())
    }

    pub(crate) fn is_json(&self) -> bool {
        self.request.arguments.json
    }

    pub(crate) fn fail(&mut self, why: impl std::fmt::Display) -> Stop {
        fail(self.log, self.name(), &why)
    }

    pub(crate) fn saving(&self) -> Saving<'r> {
        Saving { alloc: Global, is_forced: self.request.arguments.force, inputs: &self.request.inputs }
    }

    /// The status if all is shown: 3 if a table is invalid and that counts.
    pub(crate) fn strict_status(&self, entries: &[Entry<'_>]) -> u8 {
        let is_strict = self.request.arguments.strict;
        if is_strict && entries.iter().any(|entry| entry.status.is_invalid()) { 3 } else { 0 }
    }
}
