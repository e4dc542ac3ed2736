//! Calls of the Rust that may panic, in any thread.

use std::cell::Cell;
use std::panic::{self, AssertUnwindSafe};

thread_local! {
    /// Whether a panic in this thread is expected, and not printed.
    static EXPECTED: Cell<bool> = const { Cell::new(false) };
}

/// Sets a hook that prints panics, except those that are expected.
pub fn hide_expected_panics() {
    let hook = panic::take_hook();
    panic::set_hook(Box::new(move |info| {
        if !EXPECTED.get() {
            hook(info);
        }
    }));
}

/// What a call returns; nothing if it panics, which is not printed.
pub fn unless_it_panics<T>(call: impl FnOnce() -> T) -> Option<T> {
    EXPECTED.set(true);
    let done = panic::catch_unwind(AssertUnwindSafe(call));
    EXPECTED.set(false);
    done.ok()
}
