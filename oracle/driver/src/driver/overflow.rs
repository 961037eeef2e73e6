//! Catches the one way the published code can stop: a number plus one at 2^64 - 1, in a build that checks.
use std::cell::Cell;
use std::panic::{self, AssertUnwindSafe};

thread_local! {
    static EXPECTED: Cell<bool> = const { Cell::new(false) };
}

/// Keeps the panic that `caught` expects off the standard error.
pub fn quiet_hook() {
    let usual = panic::take_hook();
    panic::set_hook(Box::new(move |info| {
        let overflow = message(info.payload()).is_some_and(is_overflow);
        if !(EXPECTED.get() && overflow) {
            usual(info);
        }
    }));
}

/// Runs the body; `None` if an addition overflowed. Any other panic goes on.
pub fn caught<T>(body: impl FnOnce() -> T) -> Option<T> {
    EXPECTED.set(true);
    let result = panic::catch_unwind(AssertUnwindSafe(body));
    EXPECTED.set(false);
    match result {
        Ok(value) => Some(value),
        Err(payload) if message(&*payload).is_some_and(is_overflow) => None,
        Err(payload) => panic::resume_unwind(payload),
    }
}

fn message(payload: &(dyn std::any::Any + Send)) -> Option<&str> {
    let owned = payload.downcast_ref::<String>().map(String::as_str);
    owned.or_else(|| payload.downcast_ref::<&str>().copied())
}

fn is_overflow(message: &str) -> bool {
    message == "attempt to add with overflow"
}
