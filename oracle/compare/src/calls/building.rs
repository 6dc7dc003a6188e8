//! The builder's calls, declared.

use model::rust::Block;
use model::version::VERSION_BAD;

use super::Call;
use crate::memory::lent::Lent;
use crate::memory::out::Out;
use crate::memory::touched::calling;

#[rustfmt::skip]
unsafe extern "C" {
    fn rosmarel_add(n: *mut u64, blocks: *mut u64, blocks_len: usize, keys: *mut u8, keys_len: usize,
        key: *const u8, key_len: usize, start: u64, end: u64, first_ordinal: u64) -> u32;
    fn rosmarel_shorten(n: u64, blocks: *mut u64, blocks_len: usize, keys: *mut u8, keys_len: usize,
        next_key: *const u8, next_key_len: usize) -> u32;
    fn rosmarel_finish(version: u64, n: u64, blocks: *const u64, blocks_len: usize, keys: *const u8, keys_len: usize,
        out: *mut u8, out_len: usize, total: *mut u64, directory_len: *mut u64) -> u32;
    fn rosmarel_finish_len(version: u64, n: u64, blocks: *const u64, blocks_len: usize, keys: *const u8, keys_len: usize,
        total: *mut u64) -> u32;
}

pub static ADD: Call = Call {
    name: "add",
    numbers: &[0, 1, 2, 3, 4, 5, 6, 7],
};
pub static SHORTEN: Call = Call {
    name: "shorten",
    numbers: &[0, 1, 2, 6],
};
pub static FINISH: Call = Call {
    name: "finish",
    numbers: &[0, 1, 8, 9, VERSION_BAD],
};
pub static FINISH_LEN: Call = Call {
    name: "finish_len",
    numbers: &[0, 1, 8, VERSION_BAD],
};
pub const CALLS: &[&Call] = &[&ADD, &SHORTEN, &FINISH, &FINISH_LEN];

type Bytes = Lent<u8>;

// SAFETY of all calls: pointers and lengths of parts that are lent and don't overlap, out-parameters of their own.

#[rustfmt::skip]
pub fn add(n: &mut Out, blocks: &mut Lent<u64>, keys: &mut Bytes, key: &Bytes, block: Block) -> u64 {
    let Block { start, end, ord } = block;
    let (room, key_room) = (blocks.len(), keys.len());
    calling(&ADD, || unsafe {
        rosmarel_add(n.ptr(), blocks.ptr_mut(), room, keys.ptr_mut(), key_room, key.ptr(), key.len(), start, end, ord)
    })
    .into()
}

#[rustfmt::skip]
pub fn shorten(n: u64, blocks: &mut Lent<u64>, keys: &mut Bytes, next: &Bytes) -> u64 {
    let (room, key_room) = (blocks.len(), keys.len());
    calling(&SHORTEN, || unsafe {
        rosmarel_shorten(n, blocks.ptr_mut(), room, keys.ptr_mut(), key_room, next.ptr(), next.len())
    })
    .into()
}

/// The two out-parameters are total and directory length.
#[rustfmt::skip]
pub fn finish(version: u64, n: u64, blocks: &Lent<u64>, keys: &Bytes, out: &mut Bytes, lengths: &mut [Out; 2]) -> u64 {
    let [total, directory] = lengths.each_mut().map(Out::ptr);
    let room = out.len();
    calling(&FINISH, || unsafe {
        rosmarel_finish(version, n, blocks.ptr(), blocks.len(), keys.ptr(), keys.len(), out.ptr_mut(), room, total, directory)
    })
    .into()
}

#[rustfmt::skip]
pub fn finish_len(version: u64, n: u64, blocks: &Lent<u64>, keys: &Bytes, total: &mut Out) -> u64 {
    calling(&FINISH_LEN, || unsafe {
        rosmarel_finish_len(version, n, blocks.ptr(), blocks.len(), keys.ptr(), keys.len(), total.ptr())
    })
    .into()
}
