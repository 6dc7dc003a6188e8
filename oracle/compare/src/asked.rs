//! The Rust, asked. It may panic, which is never an answer.

use std::cell::Cell;
use std::env;
use std::hint::black_box;
use std::panic::{self, AssertUnwindSafe, catch_unwind};
use std::sync::LazyLock;

use crate::calls::Call;

thread_local! {
    static ASKING: Cell<bool> = const { Cell::new(false) };
}

/// The call for which the Rust is to panic whatever it is asked: oracle/wrong/run sees that this is noticed.
static PANICS: LazyLock<Option<String>> = LazyLock::new(|| env::var("RUST_PANICS").ok());

/// What the Rust answers beside a call; None where it panics.
pub fn rust<T>(call: &'static Call, ask: impl FnOnce() -> T) -> Option<T> {
    quietly(|| {
        assert!(PANICS.as_deref() != Some(call.name), "asked to panic");
        ask()
    })
}

/// What a function returns; None where it panics.
pub fn quietly<T>(ask: impl FnOnce() -> T) -> Option<T> {
    ASKING.set(true);
    let answer = catch_unwind(AssertUnwindSafe(ask)).ok();
    ASKING.set(false);
    answer
}

/// The Rust's panics are counted, not printed.
pub fn keep_quiet() {
    let print = panic::take_hook();
    panic::set_hook(Box::new(move |info| {
        if !ASKING.get() {
            print(info);
        }
    }));
}

/// Whether a sum that wraps stops the program.
pub fn overflow_checks() -> bool {
    quietly(|| black_box(255u8) + black_box(1)).is_none()
}

/// What the Rust does where the table refuses a call.
#[derive(Clone, Copy, Debug, PartialEq, Eq, PartialOrd, Ord)]
pub enum Outside {
    Panics,
    /// it finds nothing, or refuses too
    Refuses,
    Answers,
}

impl Outside {
    /// None is a panic, Some(None) a refusal.
    pub fn of<T>(answer: &Option<Option<T>>) -> Outside {
        match answer {
            None => Outside::Panics,
            Some(None) => Outside::Refuses,
            Some(Some(_)) => Outside::Answers,
        }
    }
}
