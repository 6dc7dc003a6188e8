//! Out-parameters: one number each, between two others.

use super::lent::Junk;

#[repr(C)]
pub struct Out {
    before: u64,
    value: u64,
    after: u64,
}

impl Out {
    /// With something in it that no answer is.
    pub fn new() -> Out {
        Out::of(u64::junk(3))
    }

    pub fn of(value: u64) -> Out {
        Out {
            before: u64::junk(1),
            value,
            after: u64::junk(2),
        }
    }

    pub fn some<const N: usize>() -> [Out; N] {
        std::array::from_fn(|_| Out::new())
    }

    pub fn ptr(&mut self) -> *mut u64 {
        &mut self.value
    }

    pub fn value(&self) -> u64 {
        self.value
    }

    pub fn is(&self, value: u64) -> bool {
        self.value == value && self.guarded()
    }

    pub fn guarded(&self) -> bool {
        self.before == u64::junk(1) && self.after == u64::junk(2)
    }
}

/// The numbers, and whether nothing beside them was touched.
pub fn values<const N: usize>(outs: &[Out; N]) -> ([u64; N], bool) {
    (
        outs.each_ref().map(Out::value),
        outs.iter().all(Out::guarded),
    )
}
