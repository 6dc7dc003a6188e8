//! Common prefixes.

use tantivy_sstable::access;

use super::Call;
use crate::asked::rust;
use crate::memory::lent::Lent;
use crate::memory::touched::calling;
use crate::print::Print;
use crate::tally::{By, Case, Tally};

#[rustfmt::skip]
unsafe extern "C" {
    fn rosmarel_common_prefix_len(left: *const u8, left_len: usize, right: *const u8, right_len: usize) -> u64;
}

pub static COMMON_PREFIX_LEN: Call = Call {
    name: "common_prefix_len",
    numbers: &[0],
};
pub const CALLS: &[&Call] = &[&COMMON_PREFIX_LEN];

pub fn common_prefix_len(tally: &mut Tally, left: &[u8], right: &[u8]) -> u64 {
    let due = rust(&COMMON_PREFIX_LEN, || {
        access::common_prefix_len(left, right) as u64
    });
    let (one, other) = (Lent::new(left), Lent::new(right));
    // SAFETY: parts that are lent.
    let got = calling(&COMMON_PREFIX_LEN, || unsafe {
        rosmarel_common_prefix_len(one.ptr(), one.len(), other.ptr(), other.len())
    });
    let same = due == Some(got) && one.holds(left) && other.holds(right);
    let print = Print::of(&COMMON_PREFIX_LEN).part(left).part(right);
    tally.case(
        Case::new(&COMMON_PREFIX_LEN, By::Rust, print, 0, same),
        || format!("{left:x?} {right:x?} gives {got}, not {due:?}"),
    );
    got
}
