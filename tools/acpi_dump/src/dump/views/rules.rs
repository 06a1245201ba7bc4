//! The rules, or one with what to do about it, as lines and as documents.

use crate::check::rules::{Rule, all};
use crate::document::{self, Document, RuleOf};
use crate::dump::run::Run;

fn document_of(rule: &Rule) -> RuleOf {
    let Rule { id, section, what, advice, severity, .. } = *rule;
    RuleOf { advice, rule: id, section, severity: severity.word(), what }
}

impl Run<'_> {
    pub(crate) fn print_rules(&mut self) -> u8 {
        let named = self.request.rule;
        let rules: Vec<&Rule> = named.map_or_else(|| all().collect(), |rule| vec![rule]);
        if self.is_json() {
            let rules = rules.into_iter().map(document_of).collect();
            document::print(&Document::of_rules(&self.request.inputs, rules), self.out);
            return 0;
        }
        for rule in rules {
            writeln!(self.out, "{} {}: {} ({})", rule.id, rule.severity.word(), rule.what, rule.section);
        }
        if let Some(rule) = named {
            writeln!(self.out, "{}", rule.advice);
        }
        0
    }
}
