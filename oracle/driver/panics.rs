//! Panics of the published code, taken as answers.

use std::cell::Cell;
use std::panic::{self, AssertUnwindSafe};

/// At which field (at their number: the end), and its message.
pub struct Panic {
    pub at: usize,
    pub message: String,
}

thread_local! {
    static LISTENING: Cell<bool> = const { Cell::new(false) };
}

/// Panics inside `listen` print nothing; all others print as ever.
pub fn install_quiet_hook() {
    let loud = panic::take_hook();
    panic::set_hook(Box::new(move |info| {
        if !LISTENING.get() {
            loud(info);
        }
    }));
}

/// Runs the published code; the message where it panics.
pub fn listen(run: impl FnOnce()) -> Result<(), String> {
    LISTENING.set(true);
    let outcome = panic::catch_unwind(AssertUnwindSafe(run));
    LISTENING.set(false);
    outcome.map_err(|payload| match payload.downcast::<String>() {
        Ok(message) => *message,
        Err(payload) => payload.downcast_ref::<&str>().copied().unwrap_or_default().to_string(),
    })
}
