//! The carried Rust, built with overflow checks, panics where a number leaves its range. That is its refusal to answer.
use std::panic::{AssertUnwindSafe, catch_unwind, resume_unwind, set_hook};

/// Without this every such panic would be reported on stderr.
pub fn keep_quiet() {
    set_hook(Box::new(|_| {}));
}

/// What the work gives, or none if it panics over an overflow; any other panic goes on.
pub fn unless_overflow<T>(work: impl FnOnce() -> T) -> Option<T> {
    match catch_unwind(AssertUnwindSafe(work)) {
        Ok(answer) => Some(answer),
        Err(panic) => match panic.downcast_ref::<&str>() {
            Some(message) if message.ends_with("with overflow") => None,
            _ => resume_unwind(panic),
        },
    }
}
