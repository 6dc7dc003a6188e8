//! Index files as the Rust's builder writes them.

use tantivy_sstable::access::Block;

use crate::folder::Folder;
use model::blocks::{far_first, touching, widest};
use model::files::{File, keys_of_one_byte, worked_file};
use model::settings::LIMIT;
use model::version::V3;

fn keys(keys: &[&[u8]]) -> Vec<Vec<u8>> {
    keys.iter().map(|key| key.to_vec()).collect()
}

/// Keys of two bytes.
pub fn many(count: usize) -> Vec<Vec<u8>> {
    (0..count)
        .map(|i| vec![(i / 16) as u8, (i % 16) as u8])
        .collect()
}

/// Blocks of different lengths.
pub fn uneven(count: usize) -> Vec<Block> {
    let lengths: Vec<u64> = (0..count as u64).map(|i| i * i % 37).collect();
    let steps: Vec<u64> = (1..count as u64).map(|i| 1 + i * 7 % 5).collect();
    touching(1000, &lengths, 3, &steps)
}

pub fn files(folder: &mut Folder) {
    let (top, past) = (LIMIT - 1, 1 << 48);
    let worked = worked_file().bytes();
    assert_eq!(worked.len(), 85);
    folder.opens("good", "worked", &worked, "the 85 bytes of docs/FORMAT.md");
    let long = |last| [vec![b'a'; 1023], vec![last]].concat();
    for (name, what, blocks, keys) in [
        (
            "smallest",
            "the fewest bytes; the first separator is empty",
            touching(0, &[1, 1], 0, &[1]),
            keys(&[b"", b"a"]),
        ),
        (
            "moved",
            "worked.index but for first start 7 and first ordinal 5: what is read moves along, and it is that list's own file",
            touching(7, &[10, 15, 5], 5, &[4, 5]),
            keys(&[b"b", b"d", b"f"]),
        ),
        (
            "empty-blocks",
            "blocks without bytes; a first ordinal that isn't 0",
            touching(7, &[0, 0, 5, 0], 2, &[1, 3, 1]),
            keys(&[b"a", b"b", b"c", b"d"]),
        ),
        (
            "high-bytes",
            "separators that a signed comparison would take for falling; fronts of each other; runs of ff",
            touching(0, &[9; 6], 10, &[10; 5]),
            keys(&[
                b"\x7f",
                b"\x80",
                b"\x80\x00",
                b"\xff",
                b"\xff\xfe",
                b"\xff\xff",
            ]),
        ),
        (
            "long-keys",
            "separators of 1,024 bytes",
            touching(0, &[5, 6], 0, &[4]),
            vec![long(b'a'), long(b'b')],
        ),
        (
            "top",
            "start, end and ordinals at 2^55 - 1",
            touching(top, &[0, 0], top - 1, &[1]),
            keys(&[b"a", b"b"]),
        ),
        (
            "far",
            "one block from 0 to 2^55 - 1, an ordinal step as far: slopes cut to 32 bits (0 and 4294967295), widths of 56, the widest there are",
            widest(2),
            keys(&[b"a", b"b"]),
        ),
        (
            "far-fields",
            "one block from 0 to 2^55 - 1, then empty ones: range fields of 56 bits, ordinal fields of one, so that range fields begin at each \
             of a byte's bits; the last one takes the last 7 bytes",
            far_first(9),
            keys_of_one_byte(9),
        ),
        (
            "past-48",
            "ends and ordinals of 2^48 - 1, 2^48 and beyond",
            touching(past - 2, &[1, 1, 0, past], past - 2, &[1, 1, 3 * past]),
            keys(&[b"a", b"b", b"c", b"d"]),
        ),
        (
            "full-group",
            "128 blocks: one group",
            uneven(128),
            many(128),
        ),
        (
            "two-groups",
            "129 blocks: the second group has one",
            uneven(129),
            many(129),
        ),
        (
            "two-full-groups",
            "256 blocks: two groups",
            uneven(256),
            many(256),
        ),
        (
            "three-groups",
            "257 blocks: the third group has one",
            uneven(257),
            many(257),
        ),
    ] {
        let file = File::written(V3, &blocks, &keys);
        folder.opens("good", name, &file.bytes(), what);
    }
}
