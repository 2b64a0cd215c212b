//! The counters that the instrumented copy's counter lines call. In the
//! unchanged build nothing calls them.

use std::cell::Cell;

use judge::Counts;

thread_local! {
    static TURNS: Cell<u64> = const { Cell::new(0) };
    static TERMS: Cell<Option<usize>> = const { Cell::new(None) };
    static KEPT: Cell<Option<usize>> = const { Cell::new(None) };
}

/// A turn of the walk's loop.
pub fn turn() {
    TURNS.set(TURNS.get() + 1);
}

/// The terms of a chain before anything is dropped.
pub fn terms(count: usize) {
    TERMS.set(Some(count));
}

/// The terms of a chain that are kept.
pub fn kept(count: usize) {
    KEPT.set(Some(count));
}

/// The counts since the last call of this.
pub fn take() -> Counts {
    Counts { turns: TURNS.take(), chain: TERMS.take().zip(KEPT.take()) }
}
