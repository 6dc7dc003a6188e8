//! Parts that are lent to a call: each touches a page that can't be touched, and has a canary on its other side.

use std::sync::atomic::{AtomicBool, Ordering};
use std::{ptr, slice};

use super::mapping::Mapping;
use crate::print::{Print, Printed};

/// Bytes on the side of a part that isn't protected.
const CANARY: [u8; 64] = {
    let mut bytes = [0; 64];
    let mut i = 0;
    while i < bytes.len() {
        bytes[i] = (i * 151 + 201) as u8;
        i += 1;
    }
    bytes
};

static BEGINS: AtomicBool = AtomicBool::new(false);

/// From here on parts begin after a protected page and have the canary after them. Otherwise they end before such a page, with
/// the canary in front.
pub fn begin_at_a_page() {
    BEGINS.store(true, Ordering::Relaxed);
}

/// Elements that an unused buffer can hold: any bytes are one.
pub trait Junk: Copy + PartialEq + Printed {
    fn junk(i: usize) -> Self;
}

impl Junk for u8 {
    fn junk(i: usize) -> u8 {
        (i * 89 + 37) as u8
    }
}

impl Junk for u64 {
    fn junk(i: usize) -> u64 {
        (i as u64 + 0x5a5a).wrapping_mul(0x9e37_79b9_7f4a_7c15)
    }
}

/// What a buffer holds before a call.
pub fn junk<T: Junk>(len: usize) -> Vec<T> {
    (0..len).map(T::junk).collect()
}

/// A part that is lent.
pub struct Lent<T: Junk> {
    mapping: Mapping,
    part: *mut T,
    len: usize,
    canary: *mut u8,
}

impl<T: Junk> Lent<T> {
    pub fn new(part: &[T]) -> Lent<T> {
        let lent = Lent::place(part.len());
        // SAFETY: the part is in pages that were just taken.
        unsafe { ptr::copy_nonoverlapping(part.as_ptr(), lent.part, part.len()) };
        lent
    }

    /// A buffer with something in it.
    pub fn buffer(len: usize) -> Lent<T> {
        let mut lent = Lent::place(len);
        for (i, place) in lent.part_mut().iter_mut().enumerate() {
            *place = T::junk(i);
        }
        lent
    }

    /// A part that holds what was there before, beside its canary. Pages are aligned, so the elements are.
    fn place(len: usize) -> Lent<T> {
        let bytes = len * size_of::<T>();
        let mapping = Mapping::take(bytes + CANARY.len());
        let (first, room) = (mapping.first(), mapping.room());
        // SAFETY: part and canary are inside, and don't overlap.
        let (part, canary) = unsafe {
            let (part, canary) = match BEGINS.load(Ordering::Relaxed) {
                true => (first, first.add(bytes)),
                false => {
                    let part = first.add(room - bytes);
                    (part, part.sub(CANARY.len()))
                }
            };
            ptr::copy_nonoverlapping(CANARY.as_ptr(), canary, CANARY.len());
            (part.cast(), canary)
        };
        Lent {
            mapping,
            part,
            len,
            canary,
        }
    }

    pub fn len(&self) -> usize {
        self.len
    }

    pub fn part(&self) -> &[T] {
        // SAFETY: the part is ours, and every content is one of T.
        unsafe { slice::from_raw_parts(self.part, self.len) }
    }

    fn part_mut(&mut self) -> &mut [T] {
        // SAFETY: as above.
        unsafe { slice::from_raw_parts_mut(self.part, self.len) }
    }

    pub fn ptr(&self) -> *const T {
        self.part
    }

    pub fn ptr_mut(&mut self) -> *mut T {
        self.part
    }

    /// Whether the canary is as it was.
    pub fn guarded(&self) -> bool {
        // SAFETY: the canary is ours.
        unsafe { slice::from_raw_parts(self.canary, CANARY.len()) == CANARY }
    }

    /// Whether the part is this, and its canary is as it was.
    pub fn holds(&self, part: &[T]) -> bool {
        self.part() == part && self.guarded()
    }

    /// Whether the part begins so and goes on as a buffer does that nobody wrote to.
    pub fn holds_front(&self, front: &[T]) -> bool {
        let Some((now, rest)) = self.part().split_at_checked(front.len()) else {
            return false;
        };
        let untouched = |(i, &value): (usize, &T)| value == T::junk(front.len() + i);
        now == front && rest.iter().enumerate().all(untouched) && self.guarded()
    }

    /// The part's content, for a call's print.
    pub fn print(&self, print: Print) -> Print {
        print.part(self.part())
    }
}

impl<T: Junk> Clone for Lent<T> {
    fn clone(&self) -> Lent<T> {
        Lent::new(self.part())
    }
}

impl<T: Junk> Drop for Lent<T> {
    fn drop(&mut self) {
        self.mapping.give_back();
    }
}
