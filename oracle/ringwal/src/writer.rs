//! The transaction counter that recovery sets. The Rust's writer.rs hangs on a ring buffer that is not at hand; recovery needs
//! only this of it.
use std::cell::Cell;

thread_local! {
    static RESET: Cell<Option<u64>> = const { Cell::new(None) };
}

pub(crate) fn reset_tx_id(min: u64) {
    RESET.set(Some(min));
}

/// What this thread's recoveries set the counter to last, if anything, since this was asked before.
pub fn take_reset() -> Option<u64> {
    RESET.take()
}
