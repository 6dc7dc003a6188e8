//! Mapped pages between two that can't be touched. They are kept for the next part.

use std::cell::RefCell;
use std::ptr;

const PAGE: usize = 4096;

/// mmap's and mprotect's numbers on Linux, x86-64.
const NO_ACCESS: i32 = 0;
const READ_WRITE: i32 = 1 | 2;
const PRIVATE_ANONYMOUS: i32 = 0x02 | 0x20;

unsafe extern "C" {
    fn mmap(
        at: *mut u8,
        len: usize,
        protection: i32,
        flags: i32,
        file: i32,
        offset: i64,
    ) -> *mut u8;
    fn mprotect(at: *mut u8, len: usize, protection: i32) -> i32;
}

/// Pages that can be touched: 2^class of them. The page before and the page after can't be.
pub struct Mapping {
    first: *mut u8,
    class: usize,
}

thread_local! {
    /// those that nobody uses, by class
    static FREE: RefCell<Vec<Vec<Mapping>>> = const { RefCell::new(Vec::new()) };
}

impl Mapping {
    /// At least so many bytes. What they hold isn't known.
    pub fn take(bytes: usize) -> Mapping {
        let pages = bytes.div_ceil(PAGE).max(1).next_power_of_two();
        let class = pages.ilog2() as usize;
        let kept = FREE.with_borrow_mut(|free| free.get_mut(class).and_then(Vec::pop));
        kept.unwrap_or_else(|| Mapping::new(class))
    }

    /// Keeps the pages for another part.
    pub fn give_back(&self) {
        let Mapping { first, class } = *self;
        FREE.with_borrow_mut(|free| {
            if free.len() <= class {
                free.resize_with(class + 1, Vec::new);
            }
            free[class].push(Mapping { first, class });
        });
    }

    fn new(class: usize) -> Mapping {
        let room = PAGE << class;
        // SAFETY: new pages, which nobody else has; the ones in the middle are inside them.
        let first = unsafe {
            let before = mmap(
                ptr::null_mut(),
                room + 2 * PAGE,
                NO_ACCESS,
                PRIVATE_ANONYMOUS,
                -1,
                0,
            );
            assert_ne!(before as isize, -1, "mmap of {room} bytes failed");
            before.add(PAGE)
        };
        let protected = unsafe { mprotect(first, room, READ_WRITE) };
        assert_eq!(protected, 0, "mprotect of {room} bytes failed");
        Mapping { first, class }
    }

    /// The first byte that can be touched.
    pub fn first(&self) -> *mut u8 {
        self.first
    }

    /// How many bytes can be touched.
    pub fn room(&self) -> usize {
        PAGE << self.class
    }
}
