//! Where the published code cuts a displacement to 16 bits (02's L1): seen where it does so, on its own numbers.

use std::cell::Cell;

thread_local! {
    static CUT: Cell<bool> = const { Cell::new(false) };
}

/// Whether a displacement was cut since the last call.
pub(crate) fn take() -> bool {
    CUT.take()
}

/// A displacement, and what was kept of it.
pub(crate) fn note(whole: isize, kept: i16) {
    if whole != isize::from(kept) {
        CUT.set(true);
    }
}
