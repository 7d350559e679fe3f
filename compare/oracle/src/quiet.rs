//! Panics of the original, caught and kept from the terminal. Panics of ours are printed as ever.

use crate::error::Error;
use crate::Failure;
use std::cell::Cell;
use std::hint::black_box;
use std::panic::{catch_unwind, set_hook, take_hook, AssertUnwindSafe};
use std::sync::Once;

thread_local! {
    static INSIDE: Cell<bool> = const { Cell::new(false) };
}

static HOOK: Once = Once::new();

/// What the original answers; a panic is an answer too.
pub(crate) fn guarded<T>(call: impl FnOnce() -> Result<T, Error>) -> Result<T, Failure> {
    HOOK.call_once(|| {
        let usual = take_hook();
        set_hook(Box::new(move |about| {
            if !INSIDE.get() {
                usual(about);
            }
        }));
    });
    INSIDE.set(true);
    let caught = catch_unwind(AssertUnwindSafe(call));
    INSIDE.set(false);
    caught.map_or(Err(Failure::Panicked), |answer| answer.map_err(Failure::from))
}

/// Whether this build panics where arithmetic overflows: the profile "checked" does, plain release does not.
pub fn overflow_panics() -> bool {
    let add = || Ok(black_box(u8::MAX) + black_box(1));
    guarded(add).is_err()
}
