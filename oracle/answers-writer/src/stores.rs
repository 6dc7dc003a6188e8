//! The list of stores.

use std::collections::BTreeSet;

use model::areas::slice_rows;
use model::blocks::{
    FAR, START_BITS, TOO_FAR, WORKED, block, by_rule, most_bits, random, store, touching, widest,
};
use model::numbers::Numbers;
use model::rust::Block;
use model::settings::LIMIT;
use model::sums::fnv;
use model::version::{self, NO_VERSIONS, V3, VERSION_BAD, VERSIONS};

use crate::text::{List, hex, numbers};

pub fn list() -> String {
    list_from(2, 3)
}

/// The list of these seeds: of the large stores, and of the small ones.
pub fn list_from(large_seed: u64, small_seed: u64) -> String {
    let mut list = List::new();
    list.comment(&[
        "Stores, written by oracle/write-answers.",
        "BlockAddrStoreWriter of the Rust (tantivy-sstable 0.27.0), its write_block_meta and serialize; BitPacker and",
        "compute_num_bits are stand-ins. BlockAddrStore::get of the Rust reads all blocks back.",
        "Numbers are decimal, a byte string is x and its lower-case hex. VERSION is 3 or 4: groups of 128 blocks or of 256, of the Rust",
        "with that STORE_BLOCK_LEN.",
        "",
        "s VERSION COUNT S1 E1 O1 .. SCOUNT ECOUNT OCOUNT BYTES: start, end and first ordinal of each block; the store",
    ]);
    let first = fixed().len();
    for (i, blocks) in small_from(small_seed).iter().enumerate() {
        // the first ones with both versions; of the others, which are the same in both, each with one
        let versions = if i < first {
            &VERSIONS[..]
        } else {
            &VERSIONS[i % 2..][..1]
        };
        for &version in versions {
            list.case(format!(
                "s {} {} {}{}",
                version.number(),
                blocks.len(),
                numbers(&flat(blocks)),
                hex(&store(version, blocks))
            ));
        }
    }
    list.comment(&[
        "",
        "h VERSION SEED COUNT LENGTH FNV: the blocks by the rule below; the store's length, and the 64-bit FNV-1a hash of its",
        "bytes (h = 14695981039346656037; for each byte h = (h xor byte) * 1099511628211 mod 2^64).",
        "The rule: x = SEED. Each draw sets x to (x * 1103515245 + 12345) mod 2^31 and gives x / 65536, rounded down.",
        "k = SEED mod 23, j = (SEED / 23, rounded down) mod 23. Draw a, then b: the first block starts at a * 2^k and has",
        "the ordinal b. For each block draw a, then b: it has 0 bytes if a mod 8 = 0, else a * 2^k; the next block starts",
        "at its end, with its ordinal + 1 + b * 2^j.",
    ]);
    let mut rng = Numbers::from_seed(large_seed);
    for count in [127, 128, 129, 255, 256, 257, 511, 512, 513, 1000] {
        for (k, j) in [
            (0, 0),
            (3, 1),
            (10, 5),
            (17, 22),
            (22, 17),
            (22, 22),
            (0, 22),
            (21, 0),
        ] {
            // a seed below 2^31 with this k and j
            let seed = rng.below(4_000_000) * 529 + j * 23 + k;
            let blocks = by_rule(seed, count);
            let stores = VERSIONS.map(|version| store(version, &blocks));
            assert_eq!(stores[0] == stores[1], count <= 128);
            for (version, bytes) in VERSIONS.into_iter().zip(stores) {
                list.case(format!(
                    "h {} {seed} {count} {} {}",
                    version.number(),
                    bytes.len(),
                    fnv(&bytes)
                ));
            }
        }
    }
    refused(&mut list);
    list.text()
}

/// The number of a store from a slice, written to so many bytes.
fn number(version: u64, blocks: &[Block], room: usize) -> u64 {
    version::number(version, |version| match slice_rows(blocks).first() {
        Some(&row) => row,
        None if room < store(version, blocks).len() => 9,
        None => 0,
    })
}

/// Stores that aren't written: 30 before 3, 4, 5 and 9.
fn refused(list: &mut List) {
    list.comment(&[
        "",
        "r VERSION ROOM NO COUNT S1 E1 O1 .. SCOUNT ECOUNT OCOUNT: a store from a slice into ROOM bytes, which stay. NO is from a plain",
        "model of documents 01 and 02: 30 where VERSION is neither 3 nor 4.",
    ]);
    let legal = [
        vec![],
        WORKED[..1].to_vec(),
        WORKED.to_vec(),
        touching(0, &[4; 129], 0, &[1; 128]),
    ];
    let mut broken = vec![
        vec![block(1, 0, 0)],
        vec![block(0, 1, 0), block(2, 3, 1)],
        vec![block(0, 1, 5), block(1, 2, 5)],
        vec![block(3, 1, LIMIT), block(7, 2, 0)],
        vec![block(0, 1, 5), block(2, 3, 5)],
    ];
    for far in TOO_FAR {
        broken.push(vec![block(0, far, 0)]);
        broken.push(vec![block(0, 1, far)]);
        broken.push(vec![block(0, 1, 0), block(1, far, 1), block(far, far, 2)]);
        broken.push(vec![block(0, 1, 0), block(1, 2, 1), block(2, 3, far)]);
    }
    let known = VERSIONS.map(|version| version.number());
    let mut seen = BTreeSet::new();
    for blocks in legal.iter().chain(&broken) {
        let [full, full_4] = match slice_rows(blocks).is_empty() {
            true => VERSIONS.map(|version| store(version, blocks).len()),
            false => [100; 2],
        };
        for version in known.into_iter().chain([0, 2, 5, u64::MAX]) {
            let rooms = match blocks.len() {
                0..=3 => BTreeSet::from([0, 7, full - 1, full, 4000]),
                _ => BTreeSet::from([full_4 - 1, full - 1]),
            };
            for room in rooms {
                seen.insert(not_written(list, version, blocks, room));
            }
        }
    }
    let full = store(V3, &WORKED).len();
    for version in NO_VERSIONS {
        assert_eq!(not_written(list, version, &WORKED, full), VERSION_BAD);
    }
    assert_eq!(seen, BTreeSet::from([0, 3, 4, 5, 9, VERSION_BAD]));
}

/// A line, if the store isn't written. Returns the number.
fn not_written(list: &mut List, version: u64, blocks: &[Block], room: usize) -> u64 {
    let no = number(version, blocks, room);
    if no != 0 {
        let (count, flat) = (blocks.len(), numbers(&flat(blocks)));
        let line = format!("r {version} {room} {no} {count} {flat}");
        list.case(line.trim_end().to_string());
    }
    no
}

/// Lists of at most 20 blocks but for a few, 01's worked case first.
pub fn small() -> Vec<Vec<Block>> {
    small_from(3)
}

fn fixed() -> Vec<Vec<Block>> {
    let one = |start, end, ord| vec![Block { start, end, ord }];
    let top = LIMIT - 1;
    let mut lists = vec![
        WORKED.to_vec(),
        vec![],
        one(0, 0, 0),
        one(0, 10, 0),
        one(5, 10, 7),
        one(0, top, 0),
        one(0, top, top),
        one(top, top, top),
        one(1, 1 << 40, 0),
        touching(0, &[10, 0], 0, &[1]),
        touching(0, &[0, 0], 0, &[1]),
        touching(0, &[0, top], 0, &[top]),
        touching(0, &[top, 0], 0, &[top]),
        touching(3, &[1 << 32, 1 << 32], 9, &[1 << 32]),
        touching(
            0,
            &[(1 << 32) - 1, (1 << 32) - 1, 1 << 32],
            0,
            &[1 << 40, 1],
        ),
        touching(0, &[4000; 20], 0, &[100; 19]),
        touching(LIMIT / 2, &[0; 20], top - 19, &[1; 19]),
        touching(0, &[1; 16], 0, &[1; 15]),
    ];
    for far in FAR {
        lists.push(one(0, far, far));
        lists.push(one(far, far, 0));
        lists.push(touching(0, &[far, 0], 0, &[far]));
        lists.push(touching(1, &[far - 2, 1, 0], 1, &[far - 2, 1]));
    }
    lists.extend([20, 128, 129].map(widest));
    lists
}

fn small_from(seed: u64) -> Vec<Vec<Block>> {
    let mut lists = fixed();
    let mut rng = Numbers::from_seed(seed);
    for round in 0..9 {
        for count in 1..=20 {
            let (length_bits, step_bits) = match round % 3 {
                0 => (rng.within(2, 12), rng.within(0, 8)),
                1 => (rng.within(2, most_bits(20)), rng.within(0, most_bits(20))),
                _ => (rng.within(30, most_bits(20)), rng.within(28, most_bits(20))),
            };
            let start_bits = rng.pick(&[0, 8, 20, START_BITS]);
            let ord_bits = rng.pick(&[0, 8, 20, START_BITS]);
            lists.push(random(
                &mut rng,
                count,
                length_bits,
                step_bits,
                start_bits,
                ord_bits,
            ));
        }
    }
    lists
}

fn flat(blocks: &[Block]) -> Vec<u64> {
    blocks
        .iter()
        .flat_map(|b| [b.start, b.end, b.ord])
        .collect()
}
