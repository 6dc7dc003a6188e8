//! What the crate's own calls can't reach: numbers for lent areas and records, and the out-parameters of a refusal.

use super::*;
use crate::MAX_NUMBER;

const VERSIONS: [u64; 2] = [3, 4];

/// Some numbers that are no version.
const NO_VERSIONS: [u64; 12] = [
    0,
    1,
    2,
    5,
    6,
    30,
    128,
    256,
    259,
    1 << 32 | 3,
    1 << 63 | 4,
    u64::MAX,
];

const NUMBERS: [u64; 15] = [0, 10, 0, 0, 1, 10, 25, 4, 1, 1, 25, 30, 9, 2, 1];
const KEYS: &[u8] = b"bdf";

/// All keys, and the key e alone.
fn tables() -> [Vec<u8>; 2] {
    let mut any = vec![0; 258];
    any[..2].copy_from_slice(&[1, 1]);
    let mut e = vec![2; 1 + 3 * 257];
    e[..4].copy_from_slice(&[3, 0, 1, 0]);
    e[4 + usize::from(b'e')] = 1;
    [any, e]
}

fn worked(version: u64) -> (Vec<u8>, Opened) {
    let mut index = vec![0; 85];
    let finished = Finished {
        total: 85,
        directory_len: 31,
    };
    assert_eq!(finish(version, 3, &NUMBERS, KEYS, &mut index), Ok(finished));
    let opened = open(version, 12, &index).unwrap();
    (index, opened)
}

/// The same with 3 as the first ordinal.
fn from_three(version: u64) -> (Vec<u8>, Opened) {
    let (mut blocks, mut index) = (NUMBERS, vec![0; 85]);
    blocks[2] = 3;
    let finished = finish(version, 3, &blocks, KEYS, &mut index);
    index.truncate(finished.unwrap().total);
    let opened = open(version, 12, &index).unwrap();
    (index, opened)
}

/// Both, in both versions.
fn indexes() -> Vec<(Vec<u8>, Opened)> {
    let both = |version| [worked(version), from_three(version)];
    VERSIONS.into_iter().flat_map(both).collect()
}

#[test]
fn record_of_an_opening() {
    for version in VERSIONS {
        let (index, opened) = worked(version);
        assert_eq!(opened, [3, 0, 31, 39, 36, 75, 2, 12, version]);
        for terms in [10, 11, MAX_NUMBER, MAX_NUMBER + 1, u64::MAX] {
            let record = open(version, terms, &index).unwrap();
            assert_eq!(
                (&record[..7], &record[7..]),
                (&opened[..7], &[terms, version][..])
            );
        }
    }
}

#[test]
fn areas_are_written_as_the_records_say() {
    let mut n = 0;
    let (mut blocks, mut keys) = ([7; 16], *b"xxxxx");
    let mut add = |n: &mut u64, key: &[u8], i: usize| {
        let block = BlockAddr::new(NUMBERS[i]..NUMBERS[i + 1], NUMBERS[i + 2]);
        add(n, &mut blocks, &mut keys, key, block)
    };
    for (i, key) in KEYS.chunks(1).enumerate() {
        assert_eq!(add(&mut n, key, 5 * i), Ok(()));
    }
    assert_eq!(add(&mut n, b"g", 0), Err(Refusal::BlockJoin));
    assert_eq!(n, 3);
    assert_eq!((&blocks[..15], blocks[15]), (&NUMBERS[..], 7));
    assert_eq!(&keys, b"bdfxx");
    // "f" before "fg" stays, and so does everything else
    assert_eq!(shorten(n, &mut blocks, &mut keys, b"fg"), Ok(()));
    assert_eq!((&blocks[..15], blocks[15]), (&NUMBERS[..], 7));
    assert_eq!(&keys, b"bdfxx");
}

#[test]
fn no_1() {
    let cases: [(u64, usize, usize); 6] = [
        (65_537, 15, 3),
        (u64::MAX, 15, 3),
        (u64::MAX / 5 + 1, 15, 3),
        (3, 14, 3),
        (3, 15, 2),
        (4, 15, 3),
    ];
    for (n, blocks_len, keys_len) in cases {
        let (mut count, mut blocks, mut keys) = (n, NUMBERS, KEYS.to_vec());
        let (blocks, keys) = (&mut blocks[..blocks_len], &mut keys[..keys_len]);
        let block = BlockAddr::new(30..31, 10);
        let refused = Err(Refusal::BuilderAreas);
        assert_eq!(add(&mut count, blocks, keys, b"g", block), refused);
        assert_eq!(shorten(n, blocks, keys, b"g"), refused);
        assert_eq!(count, n);
        for version in VERSIONS {
            let answer = finish_len(version, n, blocks, keys);
            assert_eq!(answer, Err(Refusal::BuilderAreas));
            let mut out = [9; 85];
            let answer = finish(version, n, blocks, keys, &mut out);
            assert_eq!(answer, Err(Refusal::BuilderAreas));
            assert_eq!(out, [9; 85]);
        }
        assert_eq!(blocks, &NUMBERS[..blocks_len]);
        assert_eq!(keys, &KEYS[..keys_len]);
    }
    // an offset and a length whose sum wraps
    let mut blocks = NUMBERS;
    blocks[13] = u64::MAX;
    let answer = finish_len(3, 3, &blocks, KEYS);
    assert_eq!(answer, Err(Refusal::BuilderAreas));
}

#[test]
fn no_7() {
    let block = BlockAddr::new(30..31, 10);
    for (blocks_len, keys_len) in [(15, 4), (19, 4), (20, 3)] {
        let (mut n, mut blocks, mut keys) = (3, [0; 20], [0; 4]);
        blocks[..15].copy_from_slice(&NUMBERS);
        keys[..3].copy_from_slice(KEYS);
        let before = (blocks, keys);
        let answer = add(
            &mut n,
            &mut blocks[..blocks_len],
            &mut keys[..keys_len],
            b"g",
            block,
        );
        assert_eq!(answer, Err(Refusal::TooManyBlocks));
        assert_eq!((n, blocks, keys), (3, before.0, before.1));
        let answer = add(&mut n, &mut blocks, &mut keys, b"g", block);
        assert_eq!((answer, n), (Ok(()), 4));
        assert_eq!(&keys, b"bdfg");
    }
}

#[test]
fn no_8() {
    for version in VERSIONS {
        no_8_in(version);
    }
}

fn no_8_in(version: u64) {
    // one number changed: a block's numbers, its join, its ordinal, an offset, a length
    for (at, value) in [
        (0, 11),
        (1, 9),
        (7, 0),
        (11, MAX_NUMBER + 1),
        (11, u64::MAX),
        (12, MAX_NUMBER + 1),
        (12, u64::MAX),
        (8, 0),
        (4, 2),
    ] {
        let mut blocks = NUMBERS;
        blocks[at] = value;
        let answer = finish_len(version, 3, &blocks, KEYS);
        assert_eq!(answer, Err(Refusal::BuilderBlocks), "{at}");
        let mut out = [9; 85];
        let answer = finish(version, 3, &blocks, KEYS, &mut out);
        assert_eq!(answer, Err(Refusal::BuilderBlocks), "{at}");
        assert_eq!(out, [9; 85]);
    }
    let answer = finish_len(version, 3, &NUMBERS, b"bbf");
    assert_eq!(answer, Err(Refusal::BuilderBlocks));
    // with one block too
    let answer = finish_len(version, 1, &[11, 10, 0, 0, 1], b"b");
    assert_eq!(answer, Err(Refusal::BuilderBlocks));
    // a long key 0, and a key 1 that begins inside it: no byte is read behind the area
    let blocks = [0, 1, 0, 0, 1_024, 1, 2, 1, 5, 1];
    let answer = finish_len(version, 2, &blocks, &[0; 10]);
    assert_eq!(answer, Err(Refusal::BuilderBlocks));
}

#[test]
fn no_9() {
    for version in VERSIONS {
        let answer = finish(version, 3, &NUMBERS, KEYS, &mut [0; 84]);
        assert_eq!(answer, Err(Refusal::OutputTooShort));
        assert_eq!(finish_len(version, 3, &NUMBERS, KEYS), Ok(85));
        assert_eq!(finish_len(version, 1, &NUMBERS, KEYS), Ok(0));
        let none = Finished {
            total: 0,
            directory_len: 0,
        };
        assert_eq!(finish(version, 0, &[], &[], &mut []), Ok(none));
        let one = [BlockAddr::default()];
        let answer = store(version, &one, &mut [0; 44]);
        assert_eq!(answer, Err(Refusal::OutputTooShort));
        assert_eq!(store(version, &one, &mut [0; 45]), Ok(45));
    }
}

#[test]
fn no_17_to_19() {
    for version in VERSIONS {
        no_17_to_19_in(version);
    }
}

fn no_17_to_19_in(version: u64) {
    let (index, opened) = worked(version);
    for id in [3, u64::MAX] {
        assert_eq!(get_block(&index, &opened, id), Err(Refusal::UnknownId));
        assert_eq!(separator(&index, &opened, id), (0, 0));
    }
    assert_eq!(separator(&index, &opened, 2), (30, 1));
    let key = b"g";
    let refused = Refusal::KeyAboveLast;
    assert_eq!(locate_with_key(&index, &opened, key), Err(refused));
    assert_eq!(get_block_with_key(&index, &opened, key), Err(refused));

    let (index, opened) = from_three(version);
    for ord in 0..3 {
        let answer = locate_with_ord(&index, &opened, ord);
        assert_eq!(answer, Err(Refusal::OrdinalBelowFirst));
    }
}

#[test]
fn no_28() {
    for (index, opened) in indexes() {
        let opening = |terms, bytes: &[u8]| open(opened[8], terms, bytes);
        for terms in 0..=9 {
            assert_eq!(opening(terms, &index), Err(Refusal::TooFewTerms));
        }
        assert!(opening(10, &index).is_ok());
        // a fault of the file comes first
        for terms in [0, 9, 10] {
            let answer = opening(terms, &index[1..]);
            assert_eq!(answer, opening(u64::MAX, &index[1..]));
            assert_ne!(answer, Err(Refusal::TooFewTerms));
        }
    }
}

#[test]
fn no_29() {
    for (index, opened) in indexes() {
        for (ord, id) in [(3, 0), (4, 1), (8, 1), (9, 2), (11, 2)] {
            let found = locate_with_ord(&index, &opened, ord).unwrap();
            assert_eq!(found, (id, get_block(&index, &opened, id).unwrap()));
        }
        for ord in [12, 13, 1_000_000, u64::MAX] {
            let answer = locate_with_ord(&index, &opened, ord);
            assert_eq!(answer, Err(Refusal::OrdinalBeyondTerms));
        }
    }
}

/// Whatever is lent, and whatever other number there is for it.
#[test]
fn no_30() {
    let refused = Refusal::UnknownVersion;
    let (index, _) = worked(3);
    let turned = [BlockAddr {
        start: 1,
        ..BlockAddr::default()
    }];
    let many: Vec<BlockAddr> = (0..65_537).map(|i| BlockAddr::new(i..i + 1, i)).collect();
    let mut broken = NUMBERS;
    broken[7] = 0;
    for version in NO_VERSIONS {
        assert_eq!(crate::Version::from_number(version), Err(refused));
        // the blocks; none; 1; 8
        for (n, blocks) in [(3, NUMBERS), (0, NUMBERS), (65_537, NUMBERS), (3, broken)] {
            assert_eq!(finish_len(version, n, &blocks, KEYS), Err(refused));
            for room in [0, 84, 85] {
                let mut out = vec![9; room];
                let answer = finish(version, n, &blocks, KEYS, &mut out);
                assert_eq!((answer, out), (Err(refused), vec![9; room]));
            }
        }
        // none; 3; 7
        for blocks in [&[][..], &turned, &many] {
            let mut out = [9; 100];
            assert_eq!(store(version, blocks, &mut out), Err(refused));
            assert_eq!(store(version, blocks, &mut []), Err(refused));
            assert_eq!(out, [9; 100]);
        }
        // the file; 10; 11; a byte that is gone
        for bytes in [&index[..], &[], &[0; 8], &index[1..]] {
            assert_eq!(check_canonical(version, bytes), Err(refused));
            for terms in [0, 9, 12, u64::MAX] {
                assert_eq!(open(version, terms, bytes), Err(refused));
            }
        }
    }
}

/// The number of terms put into the record by hand: the rest of the record fits, so 20 isn't said.
#[test]
fn terms_of_strangers() {
    for version in VERSIONS {
        terms_of_strangers_in(version);
    }
}

fn terms_of_strangers_in(version: u64) {
    let (index, opened) = from_three(version);
    let mut numbers: Vec<u64> = (0..20).collect();
    numbers.extend([MAX_NUMBER, MAX_NUMBER + 1, u64::MAX - 1, u64::MAX]);
    for &terms in &numbers {
        let mut record = opened;
        record[7] = terms;
        for &ord in &numbers {
            let id = u64::from(ord >= 4) + u64::from(ord >= 9);
            // below the first ordinal and not below the number: 18
            let due = match ord {
                0..3 => Err(Refusal::OrdinalBelowFirst),
                _ if ord >= terms => Err(Refusal::OrdinalBeyondTerms),
                _ => get_block(&index, &opened, id).map(|block| (id, block)),
            };
            assert_eq!(locate_with_ord(&index, &record, ord), due, "{ord} {terms}");
        }
        // above the last first ordinal it is the record of an opening
        let again = open(version, terms, &index).ok();
        assert_eq!(again, (terms > 9).then_some(record));
        // no other call looks at it
        let (mut all, mut as_opened) = [&record, &opened].map(|r| with_record(&index, r)).into();
        (all[1], as_opened[1]) = (Ok(0), Ok(0));
        assert_eq!(all, as_opened);
        for id in 0..4 {
            let place = separator(&index, &opened, id);
            assert_eq!(separator(&index, &record, id), place);
        }
    }
}

/// What an ordinal may get, whatever bytes and record are.
fn by_ordinal(index: &[u8], opened: &Opened, ord: u64) -> Result<(u64, BlockAddr), Refusal> {
    let answer = locate_with_ord(index, opened, ord);
    // in the first group record that the record names: there is one where the record fits
    let first = || {
        let place = &index[opened[3] as usize + 16..][..8];
        u64::from_le_bytes(place.try_into().unwrap())
    };
    match answer {
        Ok(_) => assert!(ord < opened[7]),
        Err(Refusal::OrdinalBelowFirst) => assert!(ord < first()),
        Err(Refusal::OrdinalBeyondTerms) => assert!(first() <= ord && opened[7] <= ord),
        Err(refusal) => assert_eq!(refusal, Refusal::OpenedRecord),
    }
    answer
}

/// What holds of every address that a lookup gives.
fn in_range(block: BlockAddr) -> bool {
    block.start <= block.end && block.end <= MAX_NUMBER
}

/// Every call with a record that isn't of these bytes.
fn with_record(index: &[u8], opened: &Opened) -> [Result<u64, Refusal>; 6] {
    let [any, _] = tables();
    let n = usize::try_from(opened[0]).unwrap_or(0).min(100);
    let mut marks = vec![9; n];
    let listed = list(index, opened, &any, &mut marks);
    match listed {
        Ok(count) => {
            assert!(marks.iter().all(|mark| *mark <= 1));
            assert_eq!(marks.iter().filter(|mark| **mark == 1).count(), count);
        }
        Err(_) => assert!(marks.iter().all(|mark| *mark == 9)),
    }
    let (offset, len) = separator(index, opened, 1);
    assert!(offset + len <= index.len());
    let mut ids = [9; 2];
    let batch = locate_with_keys(index, opened, &[0, 1], b"c", &mut ids);
    match batch {
        Ok(()) => assert!((ids[0] < opened[0] || ids[0] == u64::MAX) && ids[1] == 9),
        Err(_) => assert_eq!(ids, [9; 2]),
    }
    let checked = |(id, block): (u64, BlockAddr)| {
        assert!(id < opened[0] && in_range(block));
        id
    };
    [
        get_block(index, opened, 1).map(|block| checked((1, block))),
        by_ordinal(index, opened, 5).map(checked),
        locate_with_key(index, opened, b"c"),
        get_block_with_key(index, opened, b"c").map(checked),
        batch.map(|()| ids[0]),
        listed.map(|count| count as u64),
    ]
}

#[test]
fn no_20() {
    for version in VERSIONS {
        no_20_in(version);
    }
}

fn no_20_in(version: u64) {
    let (index, opened) = worked(version);
    assert_eq!(
        with_record(&index, &opened),
        [Ok(1), Ok(1), Ok(1), Ok(1), Ok(1), Ok(3)]
    );
    // places that don't fit the bytes
    for (at, value) in [
        (1, 86),
        (2, 86),
        (3, 86),
        (4, u64::MAX),
        (5, u64::MAX),
        (6, 86),
        (0, 0),
        (0, 65_537),
        (0, u64::MAX),
    ] {
        let mut other = opened;
        other[at] = value;
        unfit(&index, &other);
    }
    unfit(&index[..40], &opened);
    unfit(&[], &opened);
    // a key's pair that leads out of the bytes: found only by those that read it
    let mut broken = index.clone();
    broken[4 + 8 + 3] = 0xff;
    let answer = locate_with_key(&broken, &opened, b"c");
    assert_eq!(answer, Err(Refusal::OpenedRecord));
    assert_eq!(separator(&broken, &opened, 1), (0, 0));
    let mut marks = [9; 3];
    let answer = list(&broken, &opened, &tables()[0], &mut marks);
    assert_eq!((answer, marks), (Err(Refusal::OpenedRecord), [9; 3]));
    // a group's width
    let mut broken = index;
    broken[39 + 33] = 0;
    let answer = get_block(&broken, &opened, 1);
    assert_eq!(answer, Err(Refusal::OpenedRecord));
}

/// The record of the worked file with the bytes of files whose numbers are those of the worked one moved up: 20 for a block with
/// an end or an ordinal of 2^55 or more, which no file that opens has.
#[test]
fn addresses_at_the_limit() {
    let far = [
        (1 << 48) - 20,
        (1 << 54) - 20,
        MAX_NUMBER - 30,
        u64::MAX - 41,
    ];
    let mut seen = [0, 0];
    for by in far.into_iter().flat_map(|from| from..from + 41) {
        for version in VERSIONS {
            for (start, ordinal) in [(by, 0), (0, by), (by, by)] {
                moved_up(version, start, ordinal, &mut seen);
            }
        }
    }
    assert!(seen.iter().all(|&count| count > 100), "{seen:?}");
}

/// Counts the blocks that are refused, and those that are found.
fn moved_up(version: u64, start: u64, ordinal: u64, seen: &mut [u32; 2]) {
    let (mut index, mut opened) = worked(version);
    opened[7] = u64::MAX;
    index[47..55].copy_from_slice(&start.to_le_bytes());
    index[55..63].copy_from_slice(&ordinal.to_le_bytes());
    let block = |numbers: &[u64]| {
        let from = start.checked_add(numbers[0])?;
        let to = start.checked_add(numbers[1])?;
        let block = BlockAddr::new(from..to, ordinal.checked_add(numbers[2])?);
        (in_range(block) && block.first_ordinal <= MAX_NUMBER).then_some(block)
    };
    let blocks: Vec<Option<BlockAddr>> = NUMBERS.chunks(5).map(block).collect();
    for (id, (block, key)) in (0..).zip(blocks.iter().zip(KEYS.chunks(1))) {
        let due = block.ok_or(Refusal::OpenedRecord);
        let moved = format!("{version} {start} {ordinal} {id}");
        assert_eq!(get_block(&index, &opened, id), due, "{moved}");
        let found = get_block_with_key(&index, &opened, key);
        assert_eq!(found, due.map(|block| (id, block)), "{moved}");
        seen[usize::from(due.is_ok())] += 1;
    }
    for ord in [ordinal, ordinal.saturating_add(5), MAX_NUMBER] {
        if let Ok((id, block)) = by_ordinal(&index, &opened, ord) {
            assert!(id < 3 && in_range(block));
        }
    }
    let due = match blocks.iter().all(Option::is_some) {
        true => Ok(opened),
        false => Err(Refusal::Block),
    };
    assert_eq!(open(version, u64::MAX, &index), due, "{start} {ordinal}");
}

/// A record that fails its own test: 20, whatever else is asked and lent.
fn unfit(index: &[u8], opened: &Opened) {
    let refused = Refusal::OpenedRecord;
    assert_eq!(with_record(index, opened), [Err(refused); 6], "{opened:?}");
    for id in [0, 1, 2, 3, 299, u64::MAX] {
        assert_eq!(get_block(index, opened, id), Err(refused));
        assert_eq!(separator(index, opened, id), (0, 0));
    }
    for ord in [0, 3, 12, u64::MAX] {
        assert_eq!(locate_with_ord(index, opened, ord), Err(refused));
    }
    for key in [&b""[..], b"g", &[0xff; 30]] {
        assert_eq!(locate_with_key(index, opened, key), Err(refused));
        assert_eq!(get_block_with_key(index, opened, key), Err(refused));
    }
    // before 26, and before 21 and 24
    let answer = locate_with_keys(index, opened, &[0], b"", &mut []);
    assert_eq!(answer, Err(refused));
    assert_eq!(list(index, opened, &[], &mut []), Err(refused));
}

/// The version put into the record by hand.
#[test]
fn versions_of_strangers() {
    for (index, opened) in indexes() {
        for version in NO_VERSIONS {
            let mut record = opened;
            record[8] = version;
            unfit(&index, &record);
        }
        // in a group that isn't full no call can tell them apart
        let mut record = opened;
        record[8] = 7 - opened[8];
        assert_eq!(open(record[8], 12, &index), Ok(record));
        assert_eq!(with_record(&index, &record), with_record(&index, &opened));
    }
}

/// 300 blocks, which are three groups in version 3 and two in version 4, with the other version put into the record.
#[test]
fn versions_of_strangers_in_more_groups() {
    let mut builder = crate::Builder::new();
    for i in 0..300u16 {
        let at = u64::from(i);
        let block = BlockAddr::new(at..at + 1, at);
        builder.add_block(&i.to_be_bytes(), block).unwrap();
    }
    let [three, four] = [crate::Version::V3, crate::Version::V4].map(|version| {
        let index = builder.finish(version).unwrap();
        let opened = open(version.number(), 300, &index).unwrap();
        (index, opened)
    });
    for (index, opened) in [&three, &four] {
        for version in NO_VERSIONS {
            let mut record = *opened;
            record[8] = version;
            unfit(index, &record);
        }
        for id in 0..300 {
            let due = BlockAddr::new(id..id + 1, id);
            assert_eq!(get_block(index, opened, id), Ok(due));
            assert_eq!(locate_with_ord(index, opened, id), Ok((id, due)));
        }
    }
    // too few group records for version 3
    let (index, mut record) = four;
    record[8] = 3;
    unfit(&index, &record);
    // enough for version 4: a block or 20, and keys as before, for which no group is read
    let (index, opened) = three;
    let mut record = opened;
    record[8] = 4;
    allowed(with_record(&index, &record));
    for id in 0..301 {
        let before = separator(&index, &opened, id);
        assert_eq!(separator(&index, &record, id), before);
        match get_block(&index, &record, id) {
            Ok(block) => assert!(in_range(block)),
            Err(Refusal::UnknownId) => assert_eq!(id, 300),
            Err(refusal) => assert_eq!(refusal, Refusal::OpenedRecord),
        }
    }
}

/// Any record at all: an answer, or a number that the call has.
#[test]
fn records_of_strangers() {
    let (index, opened) = from_three(4);
    let numbers = [0, 1, 2, 3, 4, 31, 36, 39, 75, 84, 85, 86, 1 << 32, u64::MAX];
    let mut seen = [0; 30];
    for first in 0..9 {
        for second in 0..9 {
            for value in numbers {
                for other in numbers {
                    let mut record = opened;
                    record[first] = value;
                    record[second] = other;
                    allowed(with_record(&index, &record));
                    for ord in [0, 2, 3, 9, 12, 1 << 40, u64::MAX] {
                        let answer = by_ordinal(&index, &record, ord);
                        seen[answer.map_or_else(Refusal::number, |_| 0) as usize] += 1;
                    }
                }
            }
        }
    }
    for no in [0, 18, 20, 29] {
        assert!(seen[no] > 100, "{no}: {seen:?}");
    }
}

/// Each call's own numbers, and 20.
fn allowed(all: [Result<u64, Refusal>; 6]) {
    let own = [
        &[Refusal::UnknownId][..],
        &[Refusal::OrdinalBelowFirst, Refusal::OrdinalBeyondTerms],
        &[Refusal::KeyAboveLast],
        &[Refusal::KeyAboveLast],
        &[],
        &[Refusal::RoomTooShort],
    ];
    for (answer, own) in all.into_iter().zip(own) {
        if let Err(refusal) = answer {
            assert!(own.contains(&refusal) || refusal == Refusal::OpenedRecord);
        }
    }
}

/// Each byte changed after the opening.
#[test]
fn bytes_of_strangers() {
    for version in VERSIONS {
        bytes_of_strangers_in(version);
    }
}

fn bytes_of_strangers_in(version: u64) {
    let (good, opened) = from_three(version);
    let mut seen = [0; 30];
    for at in 0..good.len() {
        for value in [0, 1, 2, 5, 57, 0x7f, 0x80, 0xff] {
            let mut index = good.clone();
            index[at] = value;
            for terms in [0, 5, 12] {
                let mut record = opened;
                record[7] = terms;
                allowed(with_record(&index, &record));
                for ord in [0, 2, 3, 4, 9, 11, 12, 1 << 40, u64::MAX] {
                    let answer = by_ordinal(&index, &record, ord);
                    seen[answer.map_or_else(Refusal::number, |_| 0) as usize] += 1;
                }
            }
        }
    }
    for no in [0, 18, 20, 29] {
        assert!(seen[no] > 20, "{no}: {seen:?}");
    }
}

/// A batch: the record's own test, then the list's, then what the searches read.
#[test]
fn no_20_and_26() {
    let (index, opened) = worked(3);
    let batch = |index: &[u8], opened: &Opened, pairs: &[u64]| {
        let mut ids = [9; 3];
        let answer = locate_with_keys(index, opened, pairs, b"gfa", &mut ids);
        answer.map(|()| ids).map_err(|refusal| (refusal, ids))
    };
    let unfit = Err((Refusal::OpenedRecord, [9; 3]));
    let (all, two, odd) = ([0, 1, 1, 1, 2, 1], [0, 1, 1, 1], [0, 1, 1]);
    assert_eq!(batch(&index, &opened, &all), Ok([u64::MAX, 2, 0]));

    let mut other = opened;
    other[0] = 65_537;
    for pairs in [&all[..], &odd, &[]] {
        assert_eq!(batch(&index, &other, pairs), unfit);
        assert_eq!(batch(&index[..40], &opened, pairs), unfit);
    }
    // separator 0 lies outside the bytes, and of these keys only a has to be held against it
    let mut broken = index;
    broken[4 + 3] = 0xff;
    let found = |key: &[u8]| locate_with_key(&broken, &opened, key);
    assert_eq!(found(b"g"), Err(Refusal::KeyAboveLast));
    assert_eq!(found(b"f"), Ok(2));
    assert_eq!(found(b"a"), Err(Refusal::OpenedRecord));
    assert_eq!(batch(&broken, &opened, &two), Ok([u64::MAX, 2, 9]));
    assert_eq!(batch(&broken, &opened, &all), unfit);
    let bad = Err((Refusal::KeyList, [9; 3]));
    for pairs in [&odd[..], &[2, 1, 1, 1], &[2, 2], &[0; 8], &[0; 130]] {
        assert_eq!(batch(&broken, &opened, pairs), bad);
    }
    assert_eq!(batch(&broken, &opened, &[]), Ok([9; 3]));
}

/// As above with a full batch in a larger index: the last key meets what is broken.
#[test]
fn no_20_after_63_keys() {
    let mut builder = crate::Builder::new();
    let key = |i: u64| u32::to_be_bytes(i as u32);
    for i in 0..5_000 {
        let block = BlockAddr::new(i..i + 1, i);
        builder.add_block(&key(i), block).unwrap();
    }
    let mut index = builder.finish(crate::Version::V3).unwrap();
    let opened = open(3, 5_000, &index).unwrap();
    let keys = [key(1_999), key(0)].concat();
    let mut pairs = [0, 4].repeat(64);
    pairs[126] = 4;
    let batch = |index: &[u8], pairs: &[u64]| {
        let mut ids = [9; 64];
        let answer = locate_with_keys(index, &opened, pairs, &keys, &mut ids);
        (answer, ids)
    };
    let mut found = [1_999; 64];
    found[63] = 0;
    assert_eq!(batch(&index, &pairs), (Ok(()), found));
    index[4 + 3] = 0xff;
    let unfit = Err(Refusal::OpenedRecord);
    assert_eq!(batch(&index, &pairs), (unfit, [9; 64]));
    found[63] = 9;
    assert_eq!(batch(&index, &pairs[..126]), (Ok(()), found));
}

#[test]
fn no_21_to_23() {
    let (index, opened) = worked(3);
    let [_, table] = tables();
    let refused = |table: &[u8], refusal| {
        let mut marks = [9; 3];
        let answer = list(&index, &opened, table, &mut marks);
        assert_eq!((answer, marks), (Err(refusal), [9; 3]));
        let answer = can_block_match(None, b"a", table);
        assert_eq!(answer, Err(refusal));
        let mut out = [9; 65];
        let answer = example(None, b"a", table, &mut out);
        assert_eq!((answer, out), (Err(refusal), [9; 65]));
    };
    refused(&[], Refusal::AutomatonSize);
    refused(&table[..700], Refusal::AutomatonSize);
    let mut other = table.clone();
    other[2] = 2;
    refused(&other, Refusal::AcceptFlag);
    let mut other = table;
    other[771] = 3;
    refused(&other, Refusal::NextState);
}

#[test]
fn no_24_and_25() {
    let (index, opened) = worked(3);
    let [any, e] = tables();
    let mut marks = [9; 2];
    let answer = list(&index, &opened, &any, &mut marks);
    assert_eq!((answer, marks), (Err(Refusal::RoomTooShort), [9; 2]));
    // marks behind the blocks stay
    let mut marks = [9; 5];
    assert_eq!(list(&index, &opened, &e, &mut marks), Ok(1));
    assert_eq!(marks, [0, 0, 1, 9, 9]);

    let mut out = [9; 66];
    let short = Err(Refusal::RoomTooShort);
    assert_eq!(example(Some(b"d"), b"ff", &e, &mut out[..65]), short);
    assert_eq!(example(Some(b"dd"), b"f", &e, &mut out[..65]), short);
    assert_eq!(example(Some(b"e"), b"f", &e, &mut out[..64]), short);
    let none = Err(Refusal::NoExample);
    assert_eq!(example(Some(b"e"), b"f", &e, &mut out), none);
    assert_eq!(out, [9; 66]);
    assert_eq!(example(Some(b"d"), b"f", &e, &mut out), Ok(1));
    assert_eq!((out[0], &out[1..]), (b'e', &[9; 65][..]));
    // all keys: e is the shortest between the two, and the lowest of those
    out[0] = 9;
    assert_eq!(example(Some(b"dd"), b"fd", &any, &mut out), Ok(1));
    assert_eq!((out[0], &out[1..]), (b'e', &[9; 65][..]));
    assert_eq!(example(None, b"f", &any, &mut out), Ok(0));
    assert_eq!((out[0], &out[1..]), (b'e', &[9; 65][..]));
}

/// The longest example is as long as the room.
#[test]
fn example_of_the_whole_room() {
    // keys whose length is 2 more than a multiple of 64
    let mut table = vec![64];
    table.extend((0..64).map(|state| u8::from(state == 2)));
    table.extend((0..64).flat_map(|state| [(state + 1) % 64; 256]));
    let mut out = [9; 67];
    let short = Err(Refusal::RoomTooShort);
    assert_eq!(example(Some(b"d\xff"), b"e", &table, &mut out[..65]), short);
    assert_eq!(out, [9; 67]);
    let answer = example(Some(b"d\xff"), b"e", &table, &mut out[..66]);
    assert_eq!(answer, Ok(66));
    assert_eq!(&out[..2], b"d\xff");
    assert_eq!((&out[2..66], out[66]), (&[0; 64][..], 9));
}

/// An absent start is no key: what stands in its place isn't looked at.
#[test]
fn absent_start() {
    let [_, e] = tables();
    let mut matches = 9;
    let ignored = [0xff; 200];
    // SAFETY: pointers and lengths of references.
    let number = unsafe {
        rosmarel_can_block_match(
            false,
            ignored.as_ptr(),
            ignored.len(),
            b"f".as_ptr(),
            1,
            e.as_ptr(),
            e.len(),
            &mut matches,
        )
    };
    assert_eq!((number, matches), (0, 1));
    let (mut out, mut len) = ([9; 65], 9);
    // SAFETY: as above.
    let number = unsafe {
        rosmarel_example(
            false,
            ignored.as_ptr(),
            ignored.len(),
            b"f".as_ptr(),
            1,
            e.as_ptr(),
            e.len(),
            out.as_mut_ptr(),
            out.len(),
            &mut len,
        )
    };
    assert_eq!((number, len, out[0]), (0, 1, b'e'));
}

/// A refusal sets each out-parameter to 0.
#[test]
fn out_parameters_of_refusals() {
    let (index, opened) = worked(4);
    let [any, e] = tables();
    let (bytes, len) = (index.as_ptr(), index.len());
    let (mut a, mut b);
    let (mut c, mut d) = (9, 9);
    let mut out = [9; 10];
    let (numbers, keys) = (NUMBERS.as_ptr(), KEYS.as_ptr());
    // SAFETY: pointers and lengths of references.
    unsafe {
        for (version, due) in [(4, 9), (5, 30)] {
            (a, b) = (9, 9);
            let at = out.as_mut_ptr();
            let number = rosmarel_finish(version, 3, numbers, 15, keys, 3, at, 10, &mut a, &mut b);
            assert_eq!((number, a, b), (due, 0, 0));
        }
        for (version, due) in [(4, 1), (5, 30)] {
            a = 9;
            let number = rosmarel_finish_len(version, 4, numbers, 15, keys, 3, &mut a);
            assert_eq!((number, a), (due, 0));
        }
        let block = BlockAddr::new(0..u64::MAX, 0);
        for (version, due) in [(4, 3), (5, 30)] {
            a = 9;
            let number = rosmarel_store(version, &block, 1, out.as_mut_ptr(), 10, &mut a);
            assert_eq!((number, a), (due, 0));
        }
        for (version, terms, len, due) in [(4, 12, 7, 10), (4, 9, len, 28), (5, 12, len, 30)] {
            let mut record = [9; 9];
            let number = rosmarel_open(version, terms, bytes, len, &mut record);
            assert_eq!((number, record), (due, [0; 9]));
        }
        (a, b) = (9, 9);
        let number = rosmarel_get_block(bytes, len, &opened, 3, &mut a, &mut b, &mut c);
        assert_eq!((number, a, b, c), (17, 0, 0, 0));
        (a, b, c) = (9, 9, 9);
        let number =
            rosmarel_locate_with_ord(bytes, 40, &opened, 3, &mut d, &mut a, &mut b, &mut c);
        assert_eq!((number, a, b, c, d), (20, 0, 0, 0, 0));
        (a, b, c, d) = (9, 9, 9, 9);
        let number =
            rosmarel_locate_with_ord(bytes, len, &opened, 12, &mut d, &mut a, &mut b, &mut c);
        assert_eq!((number, a, b, c, d), (29, 0, 0, 0, 0));
        a = 9;
        let key = b"g".as_ptr();
        let number = rosmarel_locate_with_key(bytes, len, &opened, key, 1, &mut a);
        assert_eq!((number, a), (19, 0));
        (a, b, c, d) = (9, 9, 9, 9);
        let number = rosmarel_get_block_with_key(
            bytes, len, &opened, key, 1, &mut d, &mut a, &mut b, &mut c,
        );
        assert_eq!((number, a, b, c, d), (19, 0, 0, 0, 0));
        (a, b) = (9, 9);
        rosmarel_separator(bytes, len, &opened, 3, &mut a, &mut b);
        assert_eq!((a, b), (0, 0));
        a = 9;
        let number = rosmarel_list(
            bytes,
            len,
            &opened,
            any.as_ptr(),
            any.len(),
            out.as_mut_ptr(),
            2,
            &mut a,
        );
        assert_eq!((number, a), (24, 0));
        a = 9;
        let end = b"a".as_ptr();
        let number = rosmarel_can_block_match(false, end, 1, end, 1, e.as_ptr(), 9, &mut a);
        assert_eq!((number, a), (21, 0));
        a = 9;
        let number = rosmarel_example(
            false,
            end,
            1,
            end,
            1,
            e.as_ptr(),
            e.len(),
            out.as_mut_ptr(),
            10,
            &mut a,
        );
        assert_eq!((number, a), (24, 0));
    }
    assert_eq!(out, [9; 10]);
}

/// Empty slices everywhere.
#[test]
fn empty_slices() {
    let mut n = 0;
    let refused = Err(Refusal::TooManyBlocks);
    let answer = add(&mut n, &mut [], &mut [], &[], BlockAddr::default());
    assert_eq!((answer, n), (refused, 0));
    assert_eq!(shorten(0, &mut [], &mut [], &[]), Ok(()));
    for version in VERSIONS {
        assert_eq!(finish_len(version, 0, &[], &[]), Ok(0));
        assert_eq!(open(version, 0, &[]), Err(Refusal::Footer));
        assert_eq!(check_canonical(version, &[]), Err(Refusal::Footer));
        let answer = store(version, &[], &mut []);
        assert_eq!(answer, Err(Refusal::OutputTooShort));
        assert_eq!(store(version, &[], &mut [0; 8]), Ok(8));
    }
    assert_eq!(common_prefix_len(&[], &[]), 0);
    let record = [0; 9];
    assert_eq!(get_block(&[], &record, 0), Err(Refusal::OpenedRecord));
    assert_eq!(separator(&[], &record, 0), (0, 0));
    let answer = locate_with_keys(&[], &record, &[], &[], &mut []);
    assert_eq!(answer, Err(Refusal::OpenedRecord));
    let (index, opened) = worked(3);
    let answer = locate_with_keys(&index, &opened, &[], &[], &mut []);
    assert_eq!(answer, Ok(()));
    let answer = list(&[], &record, &[], &mut []);
    assert_eq!(answer, Err(Refusal::OpenedRecord));
}
