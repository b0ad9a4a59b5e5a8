//! A rule line, and the rule file that the passes run under.

use std::cell::RefCell;

#[derive(Clone, Copy)]
pub enum Test {
    Always,
    Equal,
    First(u16),
    Second(u16),
}

#[derive(Clone, Copy)]
pub enum Action {
    Keep,
    Remove,
    Rewrite(u16),
}

#[derive(Clone, Copy)]
pub struct Rule {
    pub pass: u8,
    pub roles: [u8; 2],
    pub test: Test,
    pub actions: [Action; 2],
}

thread_local! {
    // The published passes take no rules, so the file in force stands beside them.
    static RULES: RefCell<Vec<Rule>> = const { RefCell::new(Vec::new()) };
}

pub(crate) fn set(rules: &[Rule]) {
    RULES.with_borrow_mut(|file| {
        file.clear();
        file.extend_from_slice(rules);
    });
}

pub(crate) fn with<R>(f: impl FnOnce(&[Rule]) -> R) -> R {
    RULES.with_borrow(|rules| f(rules))
}
