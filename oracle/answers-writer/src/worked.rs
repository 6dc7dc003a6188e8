//! The cases that documents 01 and 02 work by hand. A list is written only if they come out.

use model::automaton::Table;
use model::blocks::WORKED as BLOCKS;
use model::first::first;
use model::numbers::Numbers;
use model::opening;
use model::tied::{ALPHABETS, few_rows, interval, steps};
use model::version::V3;
use tantivy_bitpacker::{BitPacker, compute_num_bits};
use tantivy_sstable::access::{self, Index, Store};

pub fn check() {
    assert_eq!(access::find_best_slope(&[10, 25, 30]), (11, 3));
    assert_eq!(access::find_best_slope(&[4, 9]), (5, 2));
    assert_eq!(access::find_best_slope(&[1 << 40]), (0, 42));
    assert_eq!(access::find_best_slope(&[]), (0, 1));
    assert_eq!(compute_num_bits(0), 0);

    let mut packer = BitPacker::new();
    let mut packed = Vec::new();
    for (field, width) in [(3, 3), (1, 2), (7, 3), (1, 2), (1, 3)] {
        packer.write(field, width, &mut packed).unwrap();
    }
    packer.flush(&mut packed).unwrap();
    assert_eq!(packed, [0xeb, 0x05]);

    let bytes = access::write_store(&BLOCKS);
    assert_eq!(bytes.len(), 46);
    assert_eq!(bytes[44..], packed);
    let store = Store::open(&bytes);
    assert_eq!(store.get(2), Some(BLOCKS[2]));
    assert_eq!(store.get(3), None);
    for (ord, id) in [(3, 0), (4, 1), (1_000_000, 2)] {
        assert_eq!(store.binary_search_ord(ord), (id, BLOCKS[id as usize]));
    }

    // the whole index, its keys in the stand-in's directory
    let bytes = access::write_index(&[
        (BLOCKS[0], b"\x62"),
        (BLOCKS[1], b"\x64"),
        (BLOCKS[2], b"\x66"),
    ]);
    assert_eq!(bytes.len(), 85);
    let index = Index::open(&bytes);
    for id in 0..4 {
        assert_eq!(index.get_block(id), BLOCKS.get(id as usize).copied());
    }
    assert_eq!(index.locate_with_ord(4), 1);
    // with 12 terms
    let opening = opening::open(V3, &bytes);
    assert_eq!((opening.number(12), opening.number(9)), (0, 28));
    for (ord, id) in [(3, 0), (4, 1), (11, 2)] {
        let due = (id, BLOCKS[id as usize]);
        assert_eq!(opening.by_ord(12, ord), Ok(due));
        assert_eq!(index.get_and_locate_with_ord(ord), due);
    }
    assert_eq!(opening.by_ord(12, 1_000_000), Err(29));
    for (key, id) in [
        ("a", Some(0)),
        ("b", Some(0)),
        ("c", Some(1)),
        ("f", Some(2)),
        ("g", None),
    ] {
        assert_eq!(index.locate_with_key(key.as_bytes()), id);
    }

    for (left, right, short) in [
        (&b"abcdef"[..], &b"abf"[..], &b"abce"[..]),
        (b"ab", b"abc", b"ab"),
        (b"\x61\xff\xff", b"\x62", b"\x61\xff\xff"),
        (b"\x61\xff\x01", b"\x62", b"\x61\xff\x02"),
        (b"a", b"b", b"a"),
    ] {
        assert_eq!(access::find_shorter_str_in_between(left, right), short);
    }

    let only_c = Table::words(&[b"c"]);
    assert!(access::can_block_match_automaton(Some(b"b"), b"d", &only_c));
    assert_eq!(first(&only_c, Some(b"b"), b"d"), Some(b"c".to_vec()));
    assert!(!access::can_block_match_automaton(
        Some(b"c"),
        b"d",
        &only_c
    ));
    assert_eq!(index.get_block_for_automaton(&only_c), [1]);
    let only_empty = Table::words(&[b""]);
    assert!(access::can_block_match_automaton(None, b"", &only_empty));
    assert_eq!(first(&only_empty, None, b""), Some(vec![]));
    assert!(!access::can_block_match_automaton(
        Some(b""),
        b"",
        &only_empty
    ));
    short_examples();
}

/// The model's example beside every string of up to two bytes, the shorter ones first, those of a length in byte order.
fn short_examples() {
    let mut strings: Vec<Vec<u8>> = vec![vec![]];
    strings.extend((0..=u8::MAX).map(|byte| vec![byte]));
    strings.extend((0..=u16::MAX).map(|two| two.to_be_bytes().to_vec()));
    let mut rng = Numbers::from_seed(23);
    let mut lengths = [0; 3];
    for round in 0..1_000 {
        let bytes = ALPHABETS[round % ALPHABETS.len()];
        let m = rng.within(1, 4) as usize;
        let table = if rng.one_in(2) {
            few_rows(&mut rng, m, bytes)
        } else {
            steps(&mut rng, m, bytes)
        };
        let (start, end) = interval(&mut rng, bytes, 3);
        let inside =
            |string: &Vec<u8>| start.as_ref().is_none_or(|start| start < string) && string <= &end;
        let mut all = strings.iter();
        let due = all.find(|string| inside(string) && table.accepts(string));
        let found = first(&table, start.as_deref(), &end);
        assert_eq!(found.as_ref().filter(|found| found.len() < 3), due);
        if let Some(due) = due {
            lengths[due.len()] += 1;
        }
    }
    assert!(lengths.iter().all(|&often| often > 50), "{lengths:?}");
}
