//! What rules find, as a list with links to the fields.

use super::escape::Html;
use super::escape::Piece::{Decimal, Hex, Letters, Text};
use super::sheet::Sheet;
use crate::check::rules::{Finding, Severity, counts_of};
use std::ops::Range;

/// Prints how much rules find in tables, and what: errors first, then warnings, then notes.
pub(super) fn print_findings(findings: &[Finding], sheets: &[Sheet<'_>], out: &mut Html) {
    let [notes, warnings, errors] = counts_of(findings, Severity::Note);
    let counts = [errors as u64, warnings as u64, notes as u64];
    out.words(
        "<section id=\"findings\" class=\"card\"><h2>Findings <small>errors %, warnings %, notes %</small></h2>\
         <ol class=\"finds\">\n",
        &counts,
    );
    if findings.is_empty() {
        out.markup("<li>Nothing was found.\n");
    }
    for severity in [Severity::Error, Severity::Warning, Severity::Note] {
        for (number, finding) in findings.iter().enumerate() {
            if finding.rule.severity == severity {
                print_finding(number, finding, &sheets[finding.table], out);
            }
        }
    }
    out.markup("</ol></section>\n");
}

/// Prints what a rule finds in a table, with a link to the field.
fn print_finding(number: usize, finding: &Finding, sheet: &Sheet<'_>, out: &mut Html) {
    let (rule, offset) = (finding.rule, finding.offset as u64);
    let word = Text(rule.severity.word());
    let gap = if finding.field.is_empty() { "" } else { " " };
    out.fill(
        "<li id=\"check-$\" class=\"$\"><span class=\"sev\">$</span> <a href=\"#$\">$ +$$$</a> \
         <span class=\"msg\">$</span> <small>$ · $</small>\n",
        &[
            Decimal(number as u64),
            word,
            word,
            sheet.link(offset),
            Letters(sheet.signature),
            Hex(offset),
            Text(gap),
            Text(finding.field),
            Text(&finding.message),
            Text(rule.id),
            Text(rule.section),
        ],
    );
}

/// Prints the findings of these numbers, which rules find in a field, after its row.
pub(super) fn print_findings_of(findings: &[Finding], numbers: Range<usize>, out: &mut Html) {
    for number in numbers {
        let Finding { rule, message, .. } = &findings[number];
        let word = Text(rule.severity.word());
        out.fill(
            "<tr class=\"finding $\"><td><td colspan=\"3\"><b>$</b> $ <a href=\"#check-$\">$</a>\n",
            &[word, word, Text(message), Decimal(number as u64), Text(rule.id)],
        );
    }
}
