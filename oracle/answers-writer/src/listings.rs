//! Listings: index files of the Rust's builder, and automata that tell their blocks apart.

use model::automaton::Table;
use model::blocks;
use model::faults::{other_versions, others};
use model::files::{Fault, File, rising, short_keys, smallest, two_group_file, worked_file};
use model::numbers::Numbers;
use model::opening::{self, Opened};
use model::patterns::{drawn, nearby, ring, small};
use model::settings::LIMIT;
use model::version::{V3, V4};
use tantivy_sstable::access;

use crate::patterns::Patterns;

/// Keys of files.
fn key_lists(rng: &mut Numbers) -> Vec<Vec<Vec<u8>>> {
    let run = |length: usize| vec![0xff; length];
    let mut lists: Vec<Vec<Vec<u8>>> = [
        &[&b""[..], b"\x00"][..],
        &[b"\xff", b"\xff\xff"],
        &[b"a\xff\xff", b"b"],
        &[b"", b"a", b"a\x00", b"a\x00\x00", b"ab", b"abc", b"b"],
        &[
            b"\xff",
            b"\xff\xfe\xff",
            b"\xff\xff",
            b"\xff\xff\x00",
            b"\xff\xff\xff\xfe",
            b"\xff\xff\xff\xff",
        ],
    ]
    .into_iter()
    .map(|keys| keys.iter().map(|key| key.to_vec()).collect())
    .collect();
    lists.push(vec![vec![], run(1), run(100), run(101), run(200)]);
    for count in [8, 16, 24, 40] {
        lists.push(rising(rng, count, 4));
        lists.push(shortened(rng, count));
    }
    lists
}

/// Separators between a block's last key and the next one's first; the last block keeps its key.
fn shortened(rng: &mut Numbers, count: u64) -> Vec<Vec<u8>> {
    let keys = rising(rng, 2 * count, 6);
    let ends = keys[1..].chunks(2);
    ends.map(|pair| match pair {
        [last, next] => access::find_shorter_str_in_between(last, next),
        [last] => last.clone(),
        _ => unreachable!(),
    })
    .collect()
}

pub fn files(patterns: &mut Patterns) {
    let mut rng = Numbers::from_seed(8);
    patterns.comment("listings of files of 2 blocks and more, by the Rust's builder: keys with runs of FF, keys that are fronts of others, an");
    patterns.comment("empty first separator, shortened ones");
    for keys in key_lists(&mut rng) {
        let blocks = blocks::random(&mut rng, keys.len() as u64, 8, 4, 10, 10);
        assert_eq!(patterns.open(&File::written(V3, &blocks, &keys).bytes()), 0);
        let count = if keys.len() < 8 { 1 } else { 2 };
        for _ in 0..count {
            listed(patterns, &mut rng, &keys);
        }
    }
    patterns.comment("a file of two groups");
    assert_eq!(patterns.open(&two_group_file(V3, 2).bytes()), 0);
    listed(patterns, &mut rng, &short_keys(130));
    patterns.comment("files of version 4: one group, and two");
    for count in [130, 258] {
        let keys = short_keys(count);
        let blocks = blocks::random(&mut rng, count as u64, 3, 1, 10, 10);
        let bytes = File::written(V4, &blocks, &keys).bytes();
        assert_eq!(patterns.open_as(V4, &bytes), 0);
        listed(patterns, &mut rng, &keys);
    }
    assert_eq!(patterns.open_as(V4, &two_group_file(V3, 2).bytes()), 14);
}

/// Automata of each kind, made for the keys.
fn listed(patterns: &mut Patterns, rng: &mut Numbers, keys: &[Vec<u8>]) {
    let at = |rng: &mut Numbers| keys[rng.below(keys.len() as u64) as usize].clone();
    let short = |key: Vec<u8>| key[..key.len().min(8)].to_vec();
    let one = short(at(rng));
    let some: Vec<Vec<u8>> = (0..4)
        .map(|_| {
            let key = short(at(rng));
            nearby(rng, &key)
        })
        .collect();
    let some: Vec<&[u8]> = some.iter().map(Vec::as_slice).collect();
    let byte = rng.pick(&[0x00, 0x61, 0xfe, 0xff]);
    let accepting = rng.below(2) as u8;
    let m = rng.within(2, 8) as usize;
    for table in [
        Table::words(&[&one]),
        Table::words(&some),
        Table::beginning(some[0]),
        Table::words(&[b""]),
        Table::new(vec![accepting], vec![0; 256]),
        // that end in the byte
        Table::rule(vec![0, 1], |_, b| usize::from(b == byte)),
        small(rng, m),
    ] {
        patterns.set_runs(&table);
        rooms(patterns, rng);
    }
    let way = rng.below(3) as usize;
    patterns.set_runs(&ring(rng, 64, way));
    rooms(patterns, rng);
    for m in [rng.within(3, 20), 64] {
        let (table, seed, k) = drawn(rng, m as usize);
        patterns.set_drawn(&table, seed, k);
        rooms(patterns, rng);
    }
    // by length
    let m = rng.within(2, 9) as usize;
    let mut flags = vec![0; m];
    flags[rng.below(m as u64) as usize] = 1;
    patterns.set_rule(&flags, (1, 1, 256));
    rooms(patterns, rng);
}

/// Room for the marks and no more; one less, none, some more.
fn rooms(patterns: &mut Patterns, rng: &mut Numbers) {
    let n = patterns.n();
    patterns.listing(n);
    match rng.below(6) {
        0 => patterns.listing(n - 1),
        1 => patterns.listing(n + rng.within(1, 40) as usize),
        2 => patterns.listing(n + 1),
        3 => patterns.listing(rng.below(n as u64) as usize),
        _ => {}
    }
}

/// Records that don't belong to the file.
pub fn left_free(patterns: &mut Patterns) {
    let taken = Table::words(&[b"c", b"f"]);
    patterns.comment("left free: refused files, with the record that they would have");
    patterns.set_runs(&taken);
    let file = smallest();
    let faults: [Fault; 8] = [
        |file| file.pair(1, u32::MAX, 1),
        |file| file.pair(0, u32::MAX, u32::MAX),
        |file| file.pair(0, 0, 2),
        |file| file.pair(1, 0, 2),
        |file| file.pair(1, 1, 2),
        |file| file.directory[20] = 0xff,
        |file| file.widths(0, 0, 0),
        |file| file.first_start(0, LIMIT),
    ];
    for fault in faults {
        assert_ne!(patterns.open(&file.with(fault).bytes()), 0);
        let record = Opened {
            records: (30, 36),
            ..patterns.record()
        };
        free(patterns, record);
    }
    patterns.comment("left free: no bytes at all, with the record of the 85 bytes and with none");
    let right = opening::open(V3, &worked_file().bytes()).record;
    assert_eq!(patterns.open(b""), 10);
    free(patterns, right);
    free(patterns, Opened::default());
    patterns.comment("left free: the 85 bytes with records that aren't theirs");
    assert_eq!(patterns.open(&worked_file().bytes()), 0);
    for record in others(right) {
        free(patterns, record);
    }
    of_other_versions(patterns, right);
    patterns.comment("left free: the same with automata that are refused");
    let one = Table::new(vec![1], vec![0; 256]).bytes();
    let (mut flag, mut next) = (one.clone(), one);
    flag[1] = 2;
    next[257] = 1;
    for (bytes, no) in [(vec![], 21), (flag, 22), (next, 23)] {
        patterns.set_bytes(&bytes);
        assert_eq!(patterns.no(), no);
        for record in others(right) {
            patterns.set_record(record);
            patterns.free(256);
        }
    }
    patterns.comment("their own record again");
    patterns.set_record(right);
    for room in [3, 2] {
        patterns.listing(room);
    }
    patterns.set_runs(&taken);
    for room in [3, 2, 4, 256] {
        patterns.listing(room);
    }
}

/// Records of the 85 bytes with other versions.
fn of_other_versions(patterns: &mut Patterns, right: Opened) {
    patterns.comment("the record of another version: 20 before all others");
    for bytes in [&[][..], &Table::new(vec![1], vec![0; 256]).bytes()] {
        patterns.set_bytes(bytes);
        for record in other_versions(right) {
            patterns.set_record(record);
            for room in [256, 2] {
                match record.unfit(worked_file().bytes().len()) {
                    true => patterns.listing(room),
                    false => patterns.free(room),
                }
            }
        }
    }
    assert_eq!(patterns.open_as(V4, &worked_file().bytes()), 0);
    patterns.listing(3);
    assert_eq!(patterns.open(&worked_file().bytes()), 0);
}

fn free(patterns: &mut Patterns, record: Opened) {
    patterns.set_record(record);
    for room in [256, 3, 2, 0] {
        patterns.free(room);
    }
}
