//! The list of addresses: lookups in stores by id and by ordinal.

use std::collections::BTreeSet;

use model::blocks::{self, WORKED, most_bits};
use model::foreign::{self, Group, WIDES, group, near};
use model::numbers::Numbers;
use model::rust::{Block, Store};
use model::settings::LIMIT;
use model::version::{V3, V4, VERSIONS, Version};

use crate::stores;
use crate::text::{List, hex};

pub fn list() -> String {
    let mut rng = Numbers::from_seed(4);
    let mut list = List::new();
    list.comment(&[
        "Addresses, written by oracle/write-answers.",
        "Lookups are BlockAddrStore::get and binary_search_ord of the Rust (tantivy-sstable 0.27.0), over the",
        "stand-in for `common` (numbers of 2, 4 and 8 bytes, parts of bytes).",
        "Numbers are decimal, a byte string is x and its lower-case hex. STORE is a whole store of N blocks, in groups of 128 blocks where",
        "VERSION is 3, of 256 where it is 4.",
        "",
        "i STORE VERSION N ID START END ORD: get; the block's start, end and first ordinal",
        "u STORE VERSION N ID: get finds nothing",
        "o STORE VERSION N ORDINAL ID START END ORD: binary_search_ord; the block's id, and its address as above.",
        "Ordinals below the first, where the Rust panics, are left out.",
        "",
        "Stores of the list above",
    ]);
    let blocks = WORKED;
    for version in VERSIONS {
        look_up(
            &mut list,
            version,
            &blocks::store(version, &blocks),
            &blocks,
            0..5,
            [0, 3, 4, 8, 9, 10, 1_000_000],
        );
    }
    for (i, blocks) in stores::small().iter().enumerate() {
        let count = blocks.len() as u64;
        // all the small ones, and some of the others; one group is the same in both versions
        if count <= 3 || i % 11 == 0 {
            let most = if count <= 3 { 3 } else { 4 };
            let version = VERSIONS[i / 2 % 2];
            let store = blocks::store(version, blocks);
            add(&mut list, &mut rng, version, &store, blocks, most);
        }
    }
    list.comment(&["", "Stores of the Rust with one group and more"]);
    for (version, count, length_bits, step_bits) in [
        (V3, 128, 5, 0),
        (V3, 129, 4, 2),
        (V3, 130, 9, 5),
        (V3, 257, 2, 0),
        (V4, 129, 4, 2),
        (V4, 255, 3, 0),
        (V4, 256, 2, 1),
        (V4, 257, 2, 0),
        (V4, 513, 1, 0),
    ] {
        let blocks = blocks::random(&mut rng, count, length_bits, step_bits, 30, 20);
        let store = blocks::store(version, &blocks);
        add(&mut list, &mut rng, version, &store, &blocks, 4);
    }
    list.comment(&[
        "",
        "Foreign stores, by oracle/model/src/foreign.rs: one group, slopes that aren't the best, widths up to 56,",
        "fields of 0, bytes before the group's fields and behind them, bits behind the last field that aren't 0",
    ]);
    for round in 0..56 {
        let count = rng.within(1, 7);
        let most = most_bits(7);
        let (length_bits, step_bits) = (rng.within(2, most), rng.within(0, most));
        let blocks = blocks::random(&mut rng, count, length_bits, step_bits, 20, 40);
        let widest = round % 4 == 0;
        let offset = if rng.one_in(2) {
            0
        } else {
            rng.below(4) as usize
        };
        let group = group(&mut rng, &blocks, offset, widest);
        let behind = rng.pick(&[0, 0, 1, 9]);
        let junk = rng.bytes((offset + group.length()) as u64 + behind);
        let store = foreign::store(&[group], junk);
        let version = VERSIONS[round / 4 % 2];
        add(&mut list, &mut rng, version, &store, &blocks, 3);
    }
    list.comment(&["", "Foreign stores: fields of 56 bits from each bit of a byte on, the last ones at the end of the address bytes"]);
    for wide in WIDES {
        for (version, count) in [(V3, 9), (V4, 16)] {
            let blocks = wide.blocks(&mut rng, count);
            let group = wide.group(&blocks, 0);
            let store = foreign::store(&[group], rng.bytes(group.length() as u64));
            let ords: Vec<u64> = blocks.iter().map(|block| block.ord).collect();
            look_up(&mut list, version, &store, &blocks, 0..count as u64, ords);
        }
    }
    list.comment(&["", "Foreign stores: two groups and more, with gaps, in another order, sharing their fields or overlapping"]);
    for (round, (version, count)) in [
        (V3, 129),
        (V3, 131),
        (V3, 140),
        (V3, 257),
        (V4, 257),
        (V4, 259),
    ]
    .into_iter()
    .enumerate()
    {
        let blocks = blocks::random(&mut rng, count, 3, 1, 20, 20);
        let mut groups = Vec::new();
        let mut offset = 0;
        let parts: Vec<&[Block]> = blocks.chunks(version.group_len()).collect();
        // in every second store the last group's fields stand first
        let order: Vec<usize> = if round % 2 == 0 {
            (0..parts.len()).collect()
        } else {
            (0..parts.len()).rev().collect()
        };
        for place in order {
            offset += rng.within(1, 9) as usize;
            let narrow = near(&mut rng, parts[place], offset);
            offset += narrow.length();
            groups.push((place, narrow));
        }
        groups.sort_by_key(|&(place, _)| place);
        let groups: Vec<Group> = groups.into_iter().map(|(_, group)| group).collect();
        let junk = rng.bytes(offset as u64 + 3);
        let store = foreign::store(&groups, junk);
        add(&mut list, &mut rng, version, &store, &blocks, 4);
    }
    // the second group is like the first: one set of fields serves both; or like its front
    for (version, count) in [(V3, 256), (V3, 130), (V4, 258)] {
        let group = version.group_len();
        let lengths: Vec<u64> = (0..group).map(|_| rng.below(8)).collect();
        let steps: Vec<u64> = (0..group).map(|_| rng.within(1, 2)).collect();
        let at = |i: usize| i % group;
        let blocks = blocks::touching(
            77,
            &(0..count).map(|i| lengths[at(i)]).collect::<Vec<_>>(),
            5,
            &(0..count - 1).map(|i| steps[at(i)]).collect::<Vec<_>>(),
        );
        let first = near(&mut rng, &blocks[..group], 2);
        let second = Group {
            blocks: &blocks[group..],
            ..first
        };
        let junk = rng.bytes(2 + first.length() as u64);
        let store = foreign::store(&[first, second], junk);
        add(&mut list, &mut rng, version, &store, &blocks, 4);
    }
    // the second group's fields begin inside the first's: all fields of both are the same
    let blocks = blocks::touching(9, &[6; 140], 3, &[2; 139]);
    let same = Group {
        blocks: &blocks[..128],
        offset: 0,
        range_slope: 6,
        ord_slope: 2,
        range_width: 4,
        ord_width: 4,
    };
    let second = Group {
        blocks: &blocks[128..],
        offset: 60,
        ..same
    };
    let store = foreign::store(&[same, second], vec![0; same.length()]);
    add(&mut list, &mut rng, V3, &store, &blocks, 4);
    // full groups of the widest fields
    for version in VERSIONS {
        widest(&mut list, &mut rng, version);
    }
    list.text()
}

fn widest(list: &mut List, rng: &mut Numbers, version: Version) {
    let group = version.group_len();
    let bits = most_bits(group as u64 + 1);
    let blocks = blocks::random(rng, group as u64 + 1, bits, bits, 20, 20);
    let wide = Group {
        blocks: &blocks[..group],
        offset: 1,
        range_slope: u32::MAX,
        ord_slope: 0,
        range_width: 56,
        ord_width: 56,
    };
    let second = Group {
        blocks: &blocks[group..],
        offset: 1 + wide.length(),
        range_width: 55,
        ..wide
    };
    let junk = rng.bytes((second.offset + second.length()) as u64);
    let store = foreign::store(&[wide, second], junk);
    add(list, rng, version, &store, &blocks, 1);
}

/// At most `most` lookups of each kind, those at the ends of groups before others.
fn add(
    list: &mut List,
    rng: &mut Numbers,
    version: Version,
    bytes: &[u8],
    blocks: &[Block],
    most: usize,
) {
    let n = blocks.len() as u64;
    let group = version.group_len() as u64;
    let mut ids = BTreeSet::new();
    // 128 begins a group in one version and is inside one in the other
    for id in [n.saturating_sub(1), 0, group, group - 1, 2 * group, 128] {
        if id < n && ids.len() < most {
            ids.insert(id);
        }
    }
    while (ids.len() as u64) < n.min(most as u64) {
        ids.insert(rng.below(n));
    }
    if n == 0 || rng.one_in(4) {
        ids.insert(rng.pick(&[n, n, n + 1, n.next_multiple_of(group), u64::MAX]));
    }

    let mut ords = BTreeSet::new();
    if let (Some(first), Some(last)) = (blocks.first(), blocks.last()) {
        ords.insert(last.ord);
        if n > group {
            let begins = blocks[group as usize].ord;
            ords.extend([begins, begins - 1]);
        }
        for _ in ords.len()..most {
            let ord = blocks[rng.below(n) as usize].ord;
            ords.insert(match rng.below(6) {
                0 | 1 => ord,
                2 => ord + 1,
                3 => ord.saturating_sub(1),
                4 => rng.within(first.ord, last.ord),
                _ => rng.pick(&[LIMIT - 1, u64::MAX, 1_000_000]),
            });
        }
        ords.retain(|&ord| ord >= first.ord);
    }
    look_up(list, version, bytes, blocks, ids, ords);
}

/// Lookups in a store whose blocks are known.
fn look_up(
    list: &mut List,
    version: Version,
    bytes: &[u8],
    blocks: &[Block],
    ids: impl IntoIterator<Item = u64>,
    ords: impl IntoIterator<Item = u64>,
) {
    blocks::legal(blocks);
    let store = Store::open(version, bytes);
    let n = blocks.len();
    let text = format!("{} {} {n}", hex(bytes), version.number());
    // all blocks are as they were put in
    for id in 0..n + 2 {
        assert_eq!(store.get(id as u64), blocks.get(id).copied());
    }
    for id in ids {
        match store.get(id) {
            Some(Block { start, end, ord }) => {
                list.case(format!("i {text} {id} {start} {end} {ord}"));
            }
            None => list.case(format!("u {text} {id}")),
        }
    }
    for target in ords {
        let (id, block) = store.binary_search_ord(target);
        // the last block whose ordinal isn't above the target
        let last = blocks.partition_point(|block| block.ord <= target) - 1;
        assert_eq!((id, block), (last as u64, blocks[last]));
        let Block { start, end, ord } = block;
        list.case(format!("o {text} {target} {id} {start} {end} {ord}"));
    }
}
