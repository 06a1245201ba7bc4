//! What is left out of what rules find: the findings of an earlier check, and those that a list accepts.

use super::files::Files;
use super::request::Request;
use crate::check::rules::{Finding, rule_of};
use crate::document::letters;
use crate::prelude::*;
use acpi_programs::input::sources::{Sources, reason_of};
use serde_json::Value;

/// The files that `--baseline` and `--ignore-rules` name, and what is in them.
pub(crate) struct Accepted<'w> {
    baseline: Option<(&'w str, Vec<u8>)>,
    list: Option<(&'w str, Vec<u8>)>,
    /// The number of the day, if lines have to know it and the clock can be read.
    today: Option<u64>,
}

/// What is the same in two findings of one fault: also if the table comes elsewhere, or has grown.
#[derive(Clone, Copy)]
struct Fault<'f> {
    rule: &'f str,
    /// The signature, a letter that isn't printable as `.`.
    table: &'f str,
    field: &'f str,
    message: &'f str,
}

impl Fault<'_> {
    /// Whether a finding of an earlier check is of it. One without letters has no such member.
    fn is_in(self, earlier: &Value) -> bool {
        let members =
            [("rule", self.rule), ("signature", self.table), ("field", self.field), ("message", self.message)];
        members.iter().all(|(name, text)| match earlier.get(name) {
            Some(value) => value.as_str() == Some(text),
            None => text.is_empty(),
        })
    }
}

/// A line that accepts findings: of a rule, in all tables or those of a signature, in all fields or those of a name.
struct Line<'l> {
    number: usize,
    rule: &'l str,
    table: &'l str,
    field: &'l str,
    /// Whether the last day on which it accepts anything is over.
    is_over: bool,
    is_used: bool,
}

impl Line<'_> {
    fn accepts(&self, fault: Fault<'_>) -> bool {
        !self.is_over
            && self.rule == fault.rule
            && (self.table.is_empty() || self.table == fault.table)
            && (self.field.is_empty() || self.field == fault.field)
    }
}

/// The findings of an earlier check that aren't found yet.
struct Earlier<'e> {
    findings: &'e [Value],
    are_found: Vec<bool>,
    /// The number of the one after the last that was found: the next comes mostly there.
    next: usize,
}

impl Earlier<'_> {
    /// Finds a fault, and takes it from the list. Returns whether it is there.
    fn finds(&mut self, fault: Fault<'_>) -> bool {
        let mut places = (self.next..self.findings.len()).chain(0..self.next);
        let found = places.find(|at| !self.are_found[*at] && fault.is_in(&self.findings[*at]));
        if let Some(at) = found {
            self.are_found[at] = true;
            self.next = at + 1;
        }
        found.is_some()
    }
}

/// The number of the day of a date `YYYY-MM-DD` of the Gregorian calendar: how many days after 1970-01-01 it is.
fn day_of(date: &str) -> Option<u64> {
    let numbers: Result<Vec<u64>, _> = date.splitn(3, '-').map(str::parse).collect();
    let [year, month, day] = numbers.ok()?[..] else {
        return None;
    };
    let is_date = (1970..=9999).contains(&year) && (1..=12).contains(&month);
    if !is_date || !(1..=31).contains(&day) {
        return None;
    }
    // Years are counted from March, so that a leap day is the last of its year.
    let (year, month) = if month > 2 { (year, month - 3) } else { (year - 1, month + 9) };
    let days = year * 365 + year / 4 + year / 400 + (month * 153 + 2) / 5 + day;
    Some(days.saturating_sub(year / 100 + 719_469))
}

impl<'l> Line<'l> {
    /// What a line accepts on a day, whose text has no blanks around it.
    ///
    /// Fails, with what is wrong, if the line names no rule, or no reason, or no date after `until`.
    fn read(number: usize, text: &'l str, today: Option<u64>) -> Result<Line<'l>, &'static str> {
        let (faults, reason) = text.split_once(':').unwrap_or((text, ""));
        if reason.trim_ascii().is_empty() {
            return Err("has no reason after a colon");
        }
        let (faults, date) = faults.split_once(" until ").unwrap_or((faults, ""));
        let end = day_of(date.trim_ascii());
        if !date.is_empty() && end.is_none() {
            return Err("has no date YYYY-MM-DD after until");
        }
        let mut words = faults.trim_ascii().splitn(2, ' ');
        let (rule, rest) = (words.next().unwrap_or(""), words.next().unwrap_or("").trim_ascii_start());
        let (table, field) = rest.split_once(' ').unwrap_or((rest, ""));
        if rule_of(rule).is_none() {
            return Err("names no rule: --rules lists them");
        }
        let is_over = end.is_some_and(|end| today.is_none_or(|today| end < today));
        Ok(Line { number, rule, table, field: field.trim_ascii(), is_over, is_used: false })
    }
}

impl<'w> Accepted<'w> {
    /// Reads the files that a request names.
    ///
    /// Fails, after printing why, if the system returns an error.
    pub(crate) fn read(request: &Request<'w>, sources: &mut Files<'_>, log: &mut Log) -> Result<Accepted<'w>, Stop> {
        let mut read = |name: Option<&'w str>| match name.map(|name| sources.read(Global, name, request.reading.most)) {
            None => Ok(None),
            Some(Ok(bytes)) => Ok(name.map(|name| (name, bytes.to_vec()))),
            Some(Err(refusal)) => Err(fail(log, name.unwrap_or(""), &reason_of(&refusal))),
        };
        let (baseline, list) = (read(request.baseline)?, read(request.accepted)?);
        let today = list.as_ref().and_then(|_| sources.today().ok());
        Ok(Accepted { baseline, list, today })
    }

    /// The lines of the list, in order.
    ///
    /// Fails, after printing why, if one isn't as it should be.
    fn lines(&self, log: &mut Log) -> Result<Vec<Line<'_>>, Stop> {
        let Some((name, bytes)) = &self.list else {
            return Ok(Vec::new());
        };
        let text = str::from_utf8(bytes).map_err(|_| fail(log, name, &"it is not UTF-8"))?;
        let lines = text.lines().map(str::trim_ascii).zip(1..);
        lines
            .filter(|(text, _)| !text.is_empty() && !text.starts_with('#'))
            .map(|(text, number)| Line::read(number, text, self.today).map_err(|why| (number, why)))
            .collect::<Result<_, _>>()
            .map_err(|(number, why)| fail(log, name, &format_args!("line {number} {why}")))
    }

    /// The document of the earlier check.
    ///
    /// Fails, after printing why, if it is none.
    fn document(&self, log: &mut Log) -> Result<Value, Stop> {
        let Some((name, bytes)) = &self.baseline else {
            return Ok(Value::Null);
        };
        match serde_json::from_slice::<Value>(bytes) {
            Ok(document) if document["findings"].is_array() => Ok(document),
            _ => Err(fail(log, name, &"it is no document of --check --json")),
        }
    }

    /// The findings that neither an earlier check has nor lines accept. Prints which lines of the list accept nothing.
    ///
    /// Fails, after printing why, if a file isn't what it should be.
    pub(crate) fn rest_of(
        &self,
        mut findings: Vec<Finding>,
        entries: &[Entry<'_>],
        log: &mut Log,
    ) -> Result<Vec<Finding>, Stop> {
        let mut lines = self.lines(log)?;
        let document = self.document(log)?;
        let earlier = document["findings"].as_array().map_or(&[][..], Vec::as_slice);
        let mut earlier = Earlier { findings: earlier, are_found: vec![false; earlier.len()], next: 0 };
        findings.retain(|finding| {
            let table = &letters(&own_signature(entries[finding.table].bytes).to_bytes());
            let fault = Fault { rule: finding.rule.id, table, field: finding.field, message: &finding.message };
            let is_known = earlier.finds(fault);
            let mut accepting = lines.iter_mut().filter(|line| !is_known && line.accepts(fault)).peekable();
            let is_accepted = accepting.peek().is_some();
            accepting.for_each(|line| line.is_used = true);
            !is_known && !is_accepted
        });
        let name = self.list.as_ref().map_or("", |(name, _)| name);
        for line in lines.iter().filter(|line| line.is_over || !line.is_used) {
            let why = if line.is_over { "is over, and accepts nothing" } else { "accepts nothing that is found" };
            tell(log, name, &format_args!("line {} {why}", line.number));
        }
        Ok(findings)
    }
}
