//! Stands for the first pass, and holds what the three share: rule lines as the matcher.

use std::collections::HashSet;

use super::rewrite::{apply_peephole, Action, Instruction};
use super::OffsetMap;
use crate::rules::{self, Rule};

pub(super) fn apply(bytecode: &[u8], protected: &HashSet<usize>) -> (Vec<u8>, OffsetMap) {
    apply_rules(1, bytecode, protected)
}

/// Runs pass `pass` of the rule file.
pub(super) fn apply_rules(pass: u8, bytecode: &[u8], protected: &HashSet<usize>) -> (Vec<u8>, OffsetMap) {
    rules::with(|rules| {
        apply_peephole(bytecode, protected, |a, b| {
            let rule = rules.iter().find(|rule| rule.pass == pass && fits(rule, a, b))?;
            Some(rule.actions.map(action))
        })
    })
}

fn fits(rule: &Rule, a: &Instruction, b: &Instruction) -> bool {
    [a.opcode(), b.opcode()] == rule.roles
        && match rule.test {
            rules::Test::Always => true,
            rules::Test::Equal => a.u16_operand() == b.u16_operand(),
            rules::Test::First(number) => a.u16_operand() == number,
            rules::Test::Second(number) => b.u16_operand() == number,
        }
}

fn action(action: rules::Action) -> Action {
    match action {
        rules::Action::Keep => Action::Keep,
        rules::Action::Remove => Action::Remove,
        rules::Action::Rewrite(operand) => Action::RewriteOperand(operand),
    }
}
