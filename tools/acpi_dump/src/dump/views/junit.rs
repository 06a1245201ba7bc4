//! What rules find as the report of a test run, in the XML of JUnit that CI systems read: each rule is a test.

use super::judged::place_and_message;
use crate::check::rules::{Finding, Severity, all};
use crate::dump::run::Run;
use crate::page::Html;
use crate::page::Piece::{Decimal, Printed, Text};
use crate::prelude::*;

impl Run<'_> {
    /// Prints the report: a test for each rule of at least the least severity. What makes the status 4 makes a test
    /// fail; what isn't bad is output of the test.
    pub(super) fn print_junit(&mut self, findings: &[Finding], entries: &[Entry<'_>]) {
        let shown = self.request.least.unwrap_or(Severity::Note);
        let bad = self.request.least.unwrap_or(Severity::Error);
        let (mut tests, mut failures, mut tried) = (0, 0, Html::default());
        for rule in all().filter(|rule| rule.severity >= shown) {
            let mut lines = Html::default();
            for finding in findings.iter().filter(|finding| finding.rule.id == rule.id) {
                lines.escaped(place_and_message(finding, &entries[finding.table]).as_bytes());
                lines.markup("\n");
            }
            tests += 1;
            tried.fill("    <testcase classname=\"acpi_dump\" name=\"$\"", &[Text(rule.id)]);
            if lines.is_empty() {
                tried.markup("/>\n");
                continue;
            }
            if rule.severity >= bad {
                failures += 1;
                tried.fill(
                    ">\n      <failure type=\"$\" message=\"$ ($)\">$</failure>",
                    &[Text(rule.severity.word()), Text(rule.what), Text(rule.section), Printed(&lines)],
                );
            } else {
                tried.fill(">\n      <system-out>$</system-out>", &[Printed(&lines)]);
            }
            tried.markup("\n    </testcase>\n");
        }
        let mut report = Html::default();
        report.fill(
            "<?xml version=\"1.0\" encoding=\"UTF-8\"?>\n<testsuites>\n  <testsuite name=\"acpi_dump --check $\" \
             tests=\"$\" failures=\"$\" errors=\"0\">\n$  </testsuite>\n</testsuites>\n",
            &[Text(self.name()), Decimal(tests), Decimal(failures), Printed(&tried)],
        );
        self.out.text(report.as_str());
    }
}
