//! The list for the leaves: bits, slopes, fields and keys.

use std::collections::BTreeSet;

use model::blocks::{FAR, most_bits};
use model::numbers::Numbers;
use model::settings::{LIMIT, LIMIT_BITS};
use tantivy_bitpacker::{BitPacker, compute_num_bits};
use tantivy_sstable::access;

use crate::text::{List, hex, numbers};

pub fn list() -> String {
    let mut rng = Numbers::from_seed(1);
    let mut list = List::new();
    list.comment(&[
        "Answers for the leaves, written by oracle/write-answers. One case a line, a letter first.",
        "The Rust is tantivy-sstable 0.27.0; a stand-in is written after document 01 for a crate that is missing.",
        "Numbers are decimal, a byte string is x and its lower-case hex.",
    ]);
    num_bits(&mut list);
    little_endian(&mut list);
    slopes(&mut list, &mut rng);
    packed(&mut list, &mut rng);
    extracted(&mut list, &mut rng);
    groups(&mut list, &mut rng);
    shortened(&mut list, &mut rng);
    prefixes(&mut list, &mut rng);
    list.text()
}

fn num_bits(list: &mut List) {
    list.comment(&["n VALUE BITS: compute_num_bits, the stand-in"]);
    let mut values = BTreeSet::from([0, 1, u64::MAX]);
    for k in 1..64 {
        let power = 1u64 << k;
        values.extend([power - 1, power, power + 1]);
    }
    for value in values {
        let bits = compute_num_bits(value);
        // by definition: the lowest power of two above the value
        let least = (0..=64u8).find(|&b| u128::from(value) < 1 << b).unwrap();
        assert_eq!(bits, if least <= 56 { least } else { 64 });
        list.case(format!("n {value} {bits}"));
    }
}

fn little_endian(list: &mut List) {
    list.comment(&[
        "l WIDTH VALUE BYTES: a number in WIDTH bytes, to_le_bytes of Rust's own library",
    ]);
    for value in [0u64, 1, 0x1234, 0xfedc, 0xffff] {
        list.case(format!(
            "l 2 {value} {}",
            hex(&(value as u16).to_le_bytes())
        ));
    }
    for value in [0u64, 1, 0x1_0000, 0x1234_5678, 0xfedc_ba98, 0xffff_ffff] {
        list.case(format!(
            "l 4 {value} {}",
            hex(&(value as u32).to_le_bytes())
        ));
    }
    for value in [
        0u64,
        1,
        1 << 32,
        0x0123_4567_89ab_cdef,
        0xfedc_ba98_7654_3210,
        u64::MAX,
    ] {
        list.case(format!("l 8 {value} {}", hex(&value.to_le_bytes())));
    }
}

fn slopes(list: &mut List, rng: &mut Numbers) {
    list.comment(&[
        "p COUNT V1 .. VCOUNT SLOPE WIDTH: find_best_slope of the Rust over the points (1, V1) .. (COUNT, VCOUNT);",
        "its compute_num_bits is the stand-in",
    ]);
    let mut cases: Vec<Vec<u64>> = vec![
        vec![],
        vec![10, 25, 30],
        vec![4, 9],
        vec![1 << 40],
        vec![0],
        vec![1],
        vec![(1 << 32) - 1],
        vec![1 << 32],
        vec![(1 << 32) + 1],
        vec![LIMIT - 1],
        vec![LIMIT - 1; 2],
        vec![LIMIT - 1; 5],
        vec![0, LIMIT - 1],
        vec![0, 0, LIMIT - 1],
        vec![0; 2],
        vec![0; 3],
        vec![0; 17],
        vec![7; 2],
        vec![7; 5],
        vec![100; 12],
        vec![1, 0],
        vec![0, 1],
        // a tie of the cut slopes: the later point counts
        vec![3, 7],
        vec![3, 7, 11],
        vec![5, 11, 16],
        vec![11, 23, 34, 47],
        vec![0, 1, 2, 3],
        vec![1, 3, 5, 7, 9],
        vec![9, 19, 29, 39, 49, 59],
        vec![2, 4, 6, 8],
        // slopes of 32 bits and more, equal once cut
        vec![(1 << 32) - 1, 2 * ((1 << 32) - 1)],
        vec![1 << 33, 1 << 34],
        vec![(1 << 40) + 5, (1 << 41) + 10],
        vec![(1 << 32) + 5, 10],
        vec![5, (1 << 33) + 10],
        vec![5, (1 << 33) + 10, 15],
        vec![3 << 32, (6 << 32) + 1, (9 << 32) + 2],
        vec![(1 << 32) - 1, 1 << 33, (3 << 32) + 1],
        vec![LIMIT / 2, LIMIT - 1],
        vec![1, LIMIT - 2, LIMIT - 1],
    ];
    for far in FAR {
        cases.extend([vec![far], vec![1, far], vec![far; 2]]);
    }
    // rising, with steps of few or many bits, and some steps of 0
    for count in 1..=40 {
        let bits = rng.within(1, 5);
        cases.push(rising(rng, count, bits));
    }
    for count in 1..=12 {
        let bits = rng.within(6, most_bits(count));
        cases.push(rising(rng, count, bits));
    }
    for count in 2..=9 {
        cases.push(rising(rng, count, most_bits(count)));
    }
    // near a line, so that many cut slopes are equal
    for count in 2..=16 {
        let slope = rng.within(1, 60);
        cases.push((1..=count).map(|i| slope * i + rng.below(i + 1)).collect());
    }
    // in any order
    for count in 2..=10 {
        let bits = rng.pick(&[3, 8, 20, 33, 48, LIMIT_BITS]);
        cases.push((0..count).map(|_| rng.bits(bits)).collect());
    }
    // full groups: 128 or 256 range points, 127 or 255 ordinal points
    cases.push(vec![0; 128]);
    cases.push((1..=127).collect());
    cases.push(rising(rng, 127, 2));
    cases.push(rising(rng, 128, 4));
    cases.push(rising(rng, 128, 14));
    cases.push((1..=255).collect());
    cases.push(rising(rng, 255, 2));
    cases.push(rising(rng, 256, 4));
    cases.push(rising(rng, 256, 14));
    for values in cases {
        assert!(values.iter().all(|&value| value < LIMIT));
        let (slope, width) = access::find_best_slope(&values);
        list.case(format!(
            "p {} {}{slope} {width}",
            values.len(),
            numbers(&values)
        ));
    }
}

fn rising(rng: &mut Numbers, count: u64, bits: u64) -> Vec<u64> {
    let mut value = 0;
    (0..count)
        .map(|_| {
            value += if rng.one_in(8) { 0 } else { rng.bits(bits) };
            value
        })
        .collect()
}

/// The fields, each with its width, as the stand-in packs them; the Rust reads them back.
fn pack(fields: &[(u64, u8)]) -> Vec<u8> {
    let mut packer = BitPacker::new();
    let mut bytes = Vec::new();
    for &(field, width) in fields {
        packer.write(field, width, &mut bytes).unwrap();
    }
    packer.flush(&mut bytes).unwrap();
    let mut place = 0;
    for &(field, width) in fields {
        assert_eq!(access::extract_bits(&bytes, place, width), field);
        place += usize::from(width);
    }
    assert_eq!(bytes.len(), place.div_ceil(8));
    bytes
}

/// A field of this width, now and then the highest, 0, or the top bit alone.
fn field(rng: &mut Numbers, width: u64) -> u64 {
    match rng.below(6) {
        0 => (1 << width) - 1,
        1 => 0,
        2 => 1 << (width - 1),
        _ => rng.bits(width),
    }
}

fn packed(list: &mut List, rng: &mut Numbers) {
    list.comment(&[
        "b WIDTH COUNT F1 .. FCOUNT BYTES: COUNT fields of WIDTH bits in the stand-in for BitPacker, flushed;",
        "extract_bits of the Rust reads each field back",
    ]);
    let mut add = |width: u64, fields: Vec<u64>| {
        let bytes = pack(
            &fields
                .iter()
                .map(|&field| (field, width as u8))
                .collect::<Vec<_>>(),
        );
        list.case(format!(
            "b {width} {} {}{}",
            fields.len(),
            numbers(&fields),
            hex(&bytes)
        ));
    };
    add(5, vec![]);
    for width in 1..=56 {
        let full = (1 << width) - 1;
        // a few fields below a word, and enough to pass one
        add(width, vec![full]);
        let count = rng.within(1, 64 / width + 1).min(6);
        let mut fields: Vec<u64> = (0..count).map(|_| field(rng, width)).collect();
        fields.push(full);
        add(width, fields);
        let count = (64 / width + rng.within(1, 2)).min(12);
        add(width, (0..count).map(|_| field(rng, width)).collect());
    }
    // 63, 64 and 65 bits or so, the highest fields
    for (width, count) in [
        (1, 63),
        (1, 64),
        (1, 65),
        (2, 32),
        (4, 16),
        (8, 8),
        (16, 4),
        (32, 2),
        (21, 3),
        (9, 7),
        (13, 5),
        (5, 13),
    ] {
        add(width, vec![(1 << width) - 1; count]);
    }
}

fn extracted(list: &mut List, rng: &mut Numbers) {
    list.comment(&[
        "x BYTES ADDR WIDTH VALUE: extract_bits of the Rust, WIDTH bits from bit ADDR on; bits behind the end are 0",
    ]);
    let mut add = |bytes: &[u8], addr: usize, width: u8| {
        let value = access::extract_bits(bytes, addr, width);
        list.case(format!("x {} {addr} {width} {value}", hex(bytes)));
    };
    let full = [0xff; 16];
    for width in 1..=56u8 {
        // in the middle of a long slice; at the very end; in a short slice, perhaps over its end
        let length = rng.within(9, 13);
        let addr = rng.below(8 * (length - 8) + 1);
        add(&rng.bytes(length), addr as usize, width);
        let bits = u64::from(width) + rng.below(8);
        let length = bits.div_ceil(8) + rng.below(3);
        add(
            &rng.bytes(length),
            (8 * length - u64::from(width)) as usize,
            width,
        );
        let length = rng.within(1, 7);
        add(
            &rng.bytes(length),
            rng.below(8 * length + 1) as usize,
            width,
        );
    }
    for shift in 0..8 {
        add(&rng.bytes(8), shift, 56);
        add(&full[..8], shift, 56);
        add(&rng.bytes(7), shift, rng.pick(&[1, 8, 17, 33, 48]));
        add(&full[..7], shift, 56);
        add(&rng.bytes(16), 40 + shift, rng.pick(&[49, 50, 55, 56]));
    }
    // the widest field from each bit of a byte on, with 7, 8 and 9 bytes left from that byte on
    for shift in 0..8 {
        for left in [7, 8, 9] {
            for front in [0, 5] {
                add(&rng.bytes(front + left), 8 * front as usize + shift, 56);
            }
            add(&full[..left as usize], shift, 56);
        }
    }
    for width in [1, 8, 56] {
        add(&[], 0, width);
        add(&[], 7, width);
        add(&full[..3], 24, width);
        add(&full[..8], 64, width);
        add(&full[..8], 63, width);
        add(&full[..9], 15, width);
    }
}

fn groups(list: &mut List, rng: &mut Numbers) {
    list.comment(&[
        "g R O COUNT R1 O1 .. RCOUNT OCOUNT RLAST BYTES: a group's fields in the order of flush_block, COUNT pairs of a",
        "range field (R bits) and an ordinal field (O bits), one range field more; the stand-in for BitPacker, flushed;",
        "extract_bits of the Rust reads each field back",
    ]);
    let mut add = |r: u64, o: u64, fields: &[u64]| {
        let widths = [r as u8, o as u8].into_iter().cycle();
        let bytes = pack(&fields.iter().copied().zip(widths).collect::<Vec<_>>());
        list.case(format!(
            "g {r} {o} {} {}{}",
            fields.len() / 2,
            numbers(fields),
            hex(&bytes)
        ));
    };
    let some = |rng: &mut Numbers, r: u64, o: u64, count: u64| -> Vec<u64> {
        (0..2 * count + 1)
            .map(|i| field(rng, if i % 2 == 0 { r } else { o }))
            .collect()
    };
    add(3, 2, &[3, 1, 7, 1, 1]);
    for r in [1, 2, 7, 8, 9, 31, 49, 55, 56] {
        add(r, 1, &some(rng, r, 1, 0));
        add(r, 1, &[(1 << r) - 1]);
    }
    for (r, o) in [
        (1, 1),
        (1, 56),
        (56, 1),
        (56, 56),
        (55, 56),
        (49, 48),
        (8, 8),
        (3, 5),
        (32, 32),
        (33, 31),
    ] {
        let highest = |i: u64| (1 << if i % 2 == 0 { r } else { o }) - 1;
        add(r, o, &(0..5).map(highest).collect::<Vec<_>>());
        add(r, o, &some(rng, r, o, 2));
    }
    for _ in 0..45 {
        let (r, o) = (rng.within(1, 56), rng.within(1, 56));
        let count = rng.within(1, 300 / (r + o)).min(9);
        add(r, o, &some(rng, r, o, count));
    }
    for count in [20, 31, 40] {
        let (r, o) = (rng.within(1, 6), rng.within(1, 4));
        add(r, o, &some(rng, r, o, count));
    }
    // full groups of 128 and 256 blocks; with the widest fields the last bits are 14,280 and 28,616
    for (count, bits) in [(127, 14_280), (255, 28_616)] {
        assert_eq!((56 + 56) * count + 56, bits);
        add(1, 1, &some(rng, 1, 1, count));
        add(3, 2, &some(rng, 3, 2, count));
        add(56, 56, &some(rng, 56, 56, count));
    }
    add(1, 1, &some(rng, 1, 1, 127));
    add(3, 2, &some(rng, 3, 2, 127));
}

const LETTERS: [u8; 5] = [0x00, 0x01, 0x61, 0xfe, 0xff];

/// All strings over the letters up to this length.
fn strings(letters: &[u8], length: usize) -> Vec<Vec<u8>> {
    let mut all = vec![vec![]];
    let mut last = all.clone();
    for _ in 0..length {
        last = last
            .iter()
            .flat_map(|front| {
                letters
                    .iter()
                    .map(move |&letter| [&front[..], &[letter]].concat())
            })
            .collect();
        all.extend(last.clone());
    }
    all
}

/// A string over the letters, now and then with any byte.
fn string(rng: &mut Numbers, length: u64) -> Vec<u8> {
    (0..length)
        .map(|_| {
            if rng.one_in(5) {
                rng.next() as u8
            } else {
                rng.pick(&LETTERS)
            }
        })
        .collect()
}

fn shortened(list: &mut List, rng: &mut Numbers) {
    list.comment(&[
        "s LEFT RIGHT SHORT: find_shorter_str_in_between of the Rust, LEFT below RIGHT",
    ]);
    let mut add = |left: &[u8], right: &[u8]| {
        if left >= right {
            return;
        }
        let short = access::find_shorter_str_in_between(left, right);
        assert!(left <= &short[..] && &short[..] < right && short.len() <= left.len());
        list.case(format!("s {} {} {}", hex(left), hex(right), hex(&short)));
    };
    add(b"abcdef", b"abf");
    add(b"ab", b"abc");
    add(b"\x61\xff\xff", b"\x62");
    add(b"\x61\xff\x01", b"\x62");
    add(b"a", b"b");
    add(b"ab", b"b");
    add(b"ac", b"b");
    for (letters, length) in [
        (&LETTERS[..], 1),
        (&[0x00, 0x61, 0xff][..], 2),
        (&[0xfe, 0xff][..], 3),
    ] {
        let all = strings(letters, length);
        for left in &all {
            for right in &all {
                add(left, right);
            }
        }
    }
    let all = strings(&LETTERS, 3);
    for _ in 0..230 {
        let (left, right) = (&all[rng.below(156) as usize], &all[rng.below(156) as usize]);
        add(left.min(right), left.max(right));
    }
    // longer ones with a common front and FF behind the first differing byte
    for _ in 0..40 {
        let length = rng.below(6);
        let front = string(rng, length);
        let byte = rng.below(255) as u8;
        let above = rng.within(u64::from(byte) + 1, 255) as u8;
        let run = vec![0xff; rng.below(4) as usize];
        let length = rng.below(5);
        let left = [&front[..], &[byte], &run, &string(rng, length)].concat();
        let length = rng.below(3);
        let right = [&front[..], &[above], &string(rng, length)].concat();
        add(&left, &right);
    }
}

fn prefixes(list: &mut List, rng: &mut Numbers) {
    list.comment(&["c LEFT RIGHT LEN: common_prefix_len of the Rust"]);
    let mut add = |left: &[u8], right: &[u8]| {
        let length = access::common_prefix_len(left, right);
        list.case(format!("c {} {} {length}", hex(left), hex(right)));
    };
    let all = strings(&[0x00, 0x61, 0xff], 1);
    for left in &all {
        for right in &all {
            add(left, right);
        }
    }
    let all = strings(&[0x00, 0xff], 3);
    for left in &all {
        for right in &all {
            add(left, right);
        }
    }
    for _ in 0..60 {
        let length = rng.below(12);
        let front = string(rng, length);
        let length = rng.below(4);
        let left = [&front[..], &string(rng, length)].concat();
        let length = rng.below(4);
        let right = [&front[..], &string(rng, length)].concat();
        add(&left, &right);
    }
    for length in [31, 64, 100] {
        let key = rng.bytes(length);
        add(&key, &key);
        add(&key, &key[..key.len() - 1]);
        let mut other = key.clone();
        *other.last_mut().unwrap() ^= 1;
        add(&key, &other);
    }
}
