//! Panics of the Rust as answers: caught, and not printed.

use std::any::Any;
use std::cell::Cell;
use std::panic::{self, AssertUnwindSafe};
use std::sync::Once;

thread_local! {
    static JUDGING: Cell<bool> = Cell::new(false);
}

static HOOK: Once = Once::new();

/// Runs the work; a panic comes back as its text. Panics outside of this stay as loud as they were.
pub fn catch<T>(work: impl FnOnce() -> T) -> Result<T, String> {
    HOOK.call_once(|| {
        let loud = panic::take_hook();
        panic::set_hook(Box::new(move |info| {
            if !JUDGING.with(Cell::get) {
                loud(info);
            }
        }));
    });
    JUDGING.with(|judging| judging.set(true));
    let result = panic::catch_unwind(AssertUnwindSafe(work));
    JUDGING.with(|judging| judging.set(false));
    result.map_err(|payload| text(&*payload))
}

fn text(payload: &(dyn Any + Send)) -> String {
    if let Some(text) = payload.downcast_ref::<&str>() {
        (*text).to_string()
    } else if let Some(text) = payload.downcast_ref::<String>() {
        text.clone()
    } else {
        "no text".to_string()
    }
}
