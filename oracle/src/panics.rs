//! Calls that are meant to panic, as the hand-back of a record that is not live
//! does. Their messages would only fill the screen; all others are to be heard.

use std::cell::Cell;
use std::panic::{self, AssertUnwindSafe};
use std::sync::Once;

thread_local! {
    static ASKED_FOR: Cell<bool> = const { Cell::new(false) };
}

static HUSHED: Once = Once::new();

/// Whether a call panics.
pub fn panics(call: impl FnOnce()) -> bool {
    HUSHED.call_once(|| {
        let heard = panic::take_hook();
        panic::set_hook(Box::new(move |panic| {
            if !ASKED_FOR.get() {
                heard(panic);
            }
        }));
    });
    ASKED_FOR.set(true);
    let panicked = panic::catch_unwind(AssertUnwindSafe(call)).is_err();
    ASKED_FOR.set(false);
    panicked
}
