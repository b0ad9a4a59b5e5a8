//! 01's limits, that of the code as 02's L1 has it. The published code goes on past a limit; the first one met is the answer.

use std::cell::Cell;

pub const CODE: usize = 65_535;
pub const LABELS: usize = 4_096;
pub const ENTRIES: usize = 4_096;
pub const CONSTANTS: usize = 1_024;

pub const PROGRAM_BYTES: usize = 65_536;
pub const NESTING: usize = 64;
pub const VARIABLES: i64 = 1_024;
pub const RULES: usize = 64;

/// 02's: the most branch outcomes of the slowest call.
pub const OUTCOMES: usize = 21_845;

thread_local! {
    static MET: Cell<Option<u8>> = const { Cell::new(None) };
}

/// The refusal of the first limit met since the last call.
pub(crate) fn take() -> Option<u8> {
    MET.take()
}

pub(crate) fn code(length: usize) {
    meet(length > CODE, 10);
}

pub(crate) fn labels(count: usize) {
    meet(count > LABELS, 11);
}

pub(crate) fn entries(count: usize) {
    meet(count > ENTRIES, 12);
}

pub(crate) fn constants(count: usize) {
    meet(count > CONSTANTS, 13);
}

fn meet(over: bool, refusal: u8) {
    if over && MET.get().is_none() {
        MET.set(Some(refusal));
    }
}
