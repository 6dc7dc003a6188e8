//! Whether a file is the one that finish writes, beside the Rust's builder and the model.

use model::canonical::{self, NOT_CANONICAL};
use model::opening::Opening;
use model::rust::{self, Block};
use model::version::VERSION_BAD;

use super::Call;
use crate::asked;
use crate::memory::lent::Lent;
use crate::memory::touched::calling;
use crate::print::Print;
use crate::tally::{By, Case, Tally};

unsafe extern "C" {
    fn rosmarel_check_canonical(version: u64, index: *const u8, index_len: usize) -> u32;
}

pub static CHECK_CANONICAL: Call = Call {
    name: "check_canonical",
    numbers: &[0, 10, 11, 12, 13, 14, 15, 16, NOT_CANONICAL, VERSION_BAD],
};
pub const CALLS: &[&Call] = &[&CHECK_CANONICAL];

fn call(version: u64, index: &Lent<u8>) -> u64 {
    // SAFETY: a part that is lent.
    calling(&CHECK_CANONICAL, || unsafe {
        rosmarel_check_canonical(version, index.ptr(), index.len())
    })
    .into()
}

/// Checks a file with the opening's version. Its print is this. Returns the number that is due.
pub fn check(
    tally: &mut Tally,
    index: &Lent<u8>,
    bytes: &[u8],
    opening: &Opening,
    print: Print,
) -> u64 {
    let version = opening.version.number();
    let no = call(version, index);
    let due = canonical::number(opening, bytes);
    // of a file that opens the Rust's builder says the same
    let written = (opening.no() == 0).then(|| rewritten(opening));
    let agreed = match &written {
        None => true,
        Some(None) => false,
        Some(Some(written)) => (written == bytes) == (due == 0),
    };
    let right = agreed && no == due && index.holds(bytes);
    let by = if written.is_some() {
        By::Rust
    } else {
        By::Model
    };
    let print = Print::of(&CHECK_CANONICAL).and(print).number(version);
    let case = Case::new(&CHECK_CANONICAL, by, print, no, right);
    tally.case(case, || {
        let asked = match &written {
            Some(None) => "; the Rust panics",
            _ if !agreed => "; the Rust and the model differ",
            _ => "",
        };
        let len = bytes.len();
        format!(
            "version {version}, {len} bytes give {no}, not {due}{asked}; {:x?}",
            &bytes[..len.min(300)]
        )
    });
    due
}

/// Checks a file with a version that there isn't: 30, whatever its bytes are.
pub fn unknown(tally: &mut Tally, version: u64, index: &Lent<u8>, bytes: &[u8], print: Print) {
    let no = call(version, index);
    let due = VERSION_BAD;
    let right = no == due && index.holds(bytes);
    let print = Print::of(&CHECK_CANONICAL).and(print).number(version);
    let case = Case::new(&CHECK_CANONICAL, By::Model, print, no, right);
    tally.case(case, || {
        let (len, shown) = (bytes.len(), &bytes[..bytes.len().min(300)]);
        format!("version {version}, {len} bytes give {no}, not {due}; {shown:x?}")
    });
}

/// The Rust's index of what the model reads in a file; None where it panics.
fn rewritten(opening: &Opening) -> Option<Vec<u8>> {
    let keys = opening.keys.iter().map(Vec::as_slice);
    let given: Vec<(Block, &[u8])> = opening.blocks.iter().copied().zip(keys).collect();
    asked::rust(&CHECK_CANONICAL, || {
        rust::write_index(opening.version, &given)
    })
}
