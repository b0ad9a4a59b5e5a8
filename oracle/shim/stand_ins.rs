//! 01's stand-in that a switch turns off: constant loads are never folded.

use std::cell::Cell;

use ironplc_container::opcode;

thread_local! {
    static FOLD_CONSTANTS: Cell<bool> = const { Cell::new(false) };
}

/// Folds constant loads as published from now on.
pub fn fold_constants() {
    FOLD_CONSTANTS.set(true);
}

/// Whether a second load by `op` may become DUP.
pub(crate) fn folds(op: u8) -> bool {
    op != opcode::LOAD_CONST_I32 || FOLD_CONSTANTS.get()
}
