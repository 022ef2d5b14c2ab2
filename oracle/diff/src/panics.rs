//! The crate stops by panicking where document 01 has refusals: panics are caught and read by their message.

use std::any::Any;
use std::cell::Cell;
use std::panic::{self, AssertUnwindSafe};

thread_local! {
    static GUARDED: Cell<bool> = const { Cell::new(false) };
}

/// Panics inside `guarded` print nothing; any other is a fault of the driver and prints as usual.
pub fn keep_guarded_quiet() {
    let usual = panic::take_hook();
    panic::set_hook(Box::new(move |info| {
        if !GUARDED.with(Cell::get) {
            usual(info);
        }
    }));
}

/// What `call` gives, or the message that it panics with.
pub fn guarded<T>(call: impl FnOnce() -> T) -> Result<T, String> {
    GUARDED.with(|guarded| guarded.set(true));
    // A log or a window that panicked is looked at afterwards: that is the aim, so it is no slip to carry it
    // over.
    let result = panic::catch_unwind(AssertUnwindSafe(call));
    GUARDED.with(|guarded| guarded.set(false));
    result.map_err(message)
}

fn message(payload: Box<dyn Any + Send>) -> String {
    match payload.downcast::<String>() {
        Ok(text) => *text,
        Err(payload) => payload.downcast_ref::<&str>().unwrap_or(&"a panic without a message").to_string(),
    }
}

/// The refusal that a fatal error of the crate stands for: "6, 8, 10 and 11 stand for the crate's fatal
/// errors and panics". Any other message (a sum that wraps, an index out of range) stands for none.
pub fn refusal_of(message: &str) -> Option<u64> {
    const KINDS: [(&str, u64); 10] = [
        ("entry ", 6),          // maybe_append: conflict with a committed entry
        ("after ", 6),          // append: out of range [committed ..]
        ("to_commit ", 8),      // commit_to
        ("applied(", 8),        // applied_to
        ("invalid slice ", 8),  // slice: low > high
        ("slice[", 8),          // slice: out of bound
        ("unstable.slice[", 8), // append: a gap
        ("the last one of unstable.slice has different ", 10), // stable_entries
        ("unstable.slice is empty", 10), // stable_entries
        ("cannot add into a full inflights", 11),
    ];
    KINDS.iter().find(|(start, _)| message.starts_with(start)).map(|(_, number)| *number)
}
