//! A call that touches a page which isn't lent: the program says which one, and ends.

use std::ptr;
use std::sync::atomic::{AtomicPtr, Ordering};

use crate::calls::Call;
use crate::tally::section;

const SEGMENT_FAULT: i32 = 11;

unsafe extern "C" {
    fn signal(number: i32, handler: extern "C" fn(i32)) -> usize;
    fn _exit(status: i32) -> !;
}

/// The call that is being made.
static NOW: AtomicPtr<Call> = AtomicPtr::new(ptr::null_mut());

/// Makes a call of the library.
pub fn calling<T>(call: &'static Call, make: impl FnOnce() -> T) -> T {
    NOW.store(ptr::from_ref(call).cast_mut(), Ordering::Relaxed);
    let answer = make();
    NOW.store(ptr::null_mut(), Ordering::Relaxed);
    answer
}

/// The fault is one of a load or a store just now, so nothing is locked and printing is safe enough to end with.
extern "C" fn touched(_: i32) {
    // SAFETY: calls are static.
    let call = unsafe { NOW.load(Ordering::Relaxed).as_ref() };
    let name = call.map_or("no call", |call| call.name);
    println!(
        "FAILED {name} in \"{}\": touched memory that isn't lent; the run ends here",
        section()
    );
    // SAFETY: it ends the program.
    unsafe { _exit(2) }
}

pub fn watch() {
    // SAFETY: the handler never returns.
    unsafe { signal(SEGMENT_FAULT, touched) };
}
