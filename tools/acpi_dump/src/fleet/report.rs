//! What is printed of a fleet.

use super::differences::{Differing, differences};
use super::machines::{Machine, read_machine};
use super::sums::{Sum, Sums};
use super::{Fleet, Group, Member, Request};
use crate::prelude::*;
use serde::Serialize;
use std::collections::HashMap;
use std::io::{Result, Write};

/// Lines for people, or a document on a line for each machine.
#[derive(Clone, Copy, PartialEq)]
pub(super) enum Style {
    Text,
    Json,
}

/// How many letters of a value a line has at most.
const LONGEST: usize = 60;

fn plain(text: &str) -> String {
    let mut out = Out::new(Global);
    for letter in text.chars() {
        if letter.is_control() { out.escaped(&[letter as u32 as u8]) } else { write!(out, "{letter}") }
    }
    out.printed().unwrap_or("").to_string()
}

fn short(value: &str) -> String {
    let text = plain(value.trim_end());
    if text.chars().count() <= LONGEST { text } else { text.chars().take(LONGEST).collect::<String>() + ".." }
}

/// Prints the fleet, and returns whether the machine could be read with which the others are compared.
pub(super) fn print(
    fleet: &Fleet,
    request: &Request<'_>,
    sums: &mut Sums<'_>,
    style: Style,
    out: &mut impl Write,
) -> Result<bool> {
    let ranked = fleet.ranked();
    if style == Style::Text {
        print_members(fleet, &ranked, out)?;
    }
    let first = ranked.first().map_or("", |first| name_of(fleet, &fleet.groups[*first]));
    let name = request.base.unwrap_or(first);
    let base =
        if name.is_empty() { Err("no machine can be read".to_string()) } else { read_machine(name, request.most) };
    if let Err(why) = &base {
        eprintln!("acpi_dump: {}", plain(why));
    }
    let base = base.ok().map(|machine| (sums.of(&machine).0, machine));
    let mut counts = HashMap::new();
    for (rank, group) in ranked.iter().enumerate() {
        let group = &fleet.groups[*group];
        let found = differences_of(fleet, group, base.as_ref(), request, sums);
        for name in found.iter().map(Differing::name).collect::<std::collections::HashSet<_>>() {
            *counts.entry(name).or_insert(0usize) += group.machines.len();
        }
        match style {
            Style::Text => print_group(fleet, rank, group, &found, name, out)?,
            Style::Json => print_documents(fleet, rank, group, &found, out)?,
        }
    }
    match style {
        Style::Text => print_counts(counts, name, out)?,
        Style::Json => print_errors(fleet, out)?,
    }
    Ok(base.is_some())
}

fn name_of<'f>(fleet: &'f Fleet, group: &Group) -> &'f str {
    &fleet.members[group.machines[0]].name
}

/// What differs between a group's first machine, which is read once more, so that it needn't be kept, and the base,
/// after whose sums it comes.
fn differences_of(
    fleet: &Fleet,
    group: &Group,
    base: Option<&(Vec<Sum>, Machine)>,
    request: &Request<'_>,
    sums: &mut Sums<'_>,
) -> Vec<Differing> {
    let Some((_, base)) = base.filter(|base| base.0 != group.sums) else {
        return Vec::new();
    };
    match read_machine(name_of(fleet, group), request.most) {
        Ok(other) => differences(base, &other, &request.ignored, sums),
        Err(_) => Vec::new(),
    }
}

fn print_members(fleet: &Fleet, ranked: &[usize], out: &mut impl Write) -> Result<()> {
    let mut ranks = vec![0; ranked.len()];
    for (rank, group) in ranked.iter().enumerate() {
        ranks[*group] = rank + 1;
    }
    writeln!(out, "GROUP TABLES INVALID MACHINE")?;
    for member in &fleet.members {
        match &member.found {
            Ok((group, tables, invalid)) => {
                writeln!(out, "{:<5} {tables:<6} {invalid:<7} {}", ranks[*group], plain(&member.name))?;
            }
            Err(why) => writeln!(out, "-     -      -       {}", plain(why))?,
        }
    }
    Ok(())
}

/// Prints how many machines a group has, and what differs between its machines and the base.
fn print_group(
    fleet: &Fleet,
    rank: usize,
    group: &Group,
    found: &[Differing],
    base: &str,
    out: &mut impl Write,
) -> Result<()> {
    let (number, count) = (rank + 1, group.machines.len());
    let first = name_of(fleet, group);
    let machines = if count == 1 { "machine" } else { "machines" };
    let compared = if first == base { ", the base" } else { "" };
    writeln!(out, "\ngroup {number}: {count} {machines}, as {}{compared}", plain(first))?;
    for difference in found {
        let name = plain(&difference.name());
        match (difference.old.as_deref(), difference.new.as_deref()) {
            (Some(""), _) => writeln!(out, "  {name}: only in the base")?,
            (_, Some("")) => writeln!(out, "  {name}: not in the base")?,
            (old, new) => {
                let values = [old, new].map(|value| value.map_or("none".to_string(), short));
                writeln!(out, "  {name}: {} -> {}", values[0], values[1])?;
            }
        }
    }
    Ok(())
}

/// Prints what differs from the base in how many machines.
fn print_counts(counts: HashMap<String, usize>, base: &str, out: &mut impl Write) -> Result<()> {
    if counts.is_empty() {
        return Ok(());
    }
    let mut counts: Vec<(String, usize)> = counts.into_iter().collect();
    counts.sort_by(|one, other| other.1.cmp(&one.1).then(one.0.cmp(&other.0)));
    writeln!(out, "\nMACHINES that differ from {} in", plain(base))?;
    for (name, count) in counts {
        writeln!(out, "{count:<8} {}", plain(&name))?;
    }
    Ok(())
}

/// What is printed of a machine, on a line. The members are in the order of their names.
#[derive(Serialize)]
#[serde(untagged)]
enum Document<'f> {
    Read { differences: &'f [DifferenceOf<'f>], group: usize, invalid: usize, machine: &'f str, tables: usize },
    Unread { error: &'f str, machine: &'f str },
}

/// A difference from the base: the values in both, or which of them alone has the place or the table.
#[derive(Serialize)]
#[serde(untagged)]
enum DifferenceOf<'f> {
    Changed {
        base: Option<&'f str>,
        machine: Option<&'f str>,
        #[serde(skip_serializing_if = "str::is_empty")]
        place: &'f str,
        table: &'f str,
    },
    Only {
        only: &'static str,
        #[serde(skip_serializing_if = "str::is_empty")]
        place: &'f str,
        table: &'f str,
    },
}

impl<'f> DifferenceOf<'f> {
    fn of(difference: &'f Differing) -> DifferenceOf<'f> {
        let (table, place) = (difference.table.as_str(), difference.place.as_str());
        match (difference.old.as_deref(), difference.new.as_deref()) {
            (Some(""), _) => DifferenceOf::Only { only: "base", place, table },
            (_, Some("")) => DifferenceOf::Only { only: "machine", place, table },
            (base, machine) => DifferenceOf::Changed { base, machine, place, table },
        }
    }
}

fn print_document(document: &Document<'_>, out: &mut impl Write) -> Result<()> {
    serde_json::to_writer(&mut *out, document)?;
    writeln!(out)
}

fn print_documents(fleet: &Fleet, rank: usize, group: &Group, found: &[Differing], out: &mut impl Write) -> Result<()> {
    let differences = &found.iter().map(DifferenceOf::of).collect::<Vec<_>>();
    for Member { name: machine, found } in group.machines.iter().map(|machine| &fleet.members[*machine]) {
        if let Ok((_, tables, invalid)) = *found {
            print_document(&Document::Read { differences, group: rank + 1, invalid, machine, tables }, out)?;
        }
    }
    Ok(())
}

/// Prints a document for each machine that can't be read.
fn print_errors(fleet: &Fleet, out: &mut impl Write) -> Result<()> {
    for Member { name: machine, found } in &fleet.members {
        if let Err(error) = found {
            print_document(&Document::Unread { error, machine }, out)?;
        }
    }
    Ok(())
}
