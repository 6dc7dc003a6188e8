//! Many keys in one lookup: what the single lookup finds for each, in both forms, and everything that 26 refuses.

mod model;

use model::{Draw, Entries, VERSIONS};
use rosmarel::{BlockAddr, Index, MAX_BATCH_KEYS, NO_ID, Refusal, Version};

/// Separators b, d and f, in version 3.
fn worked() -> Vec<u8> {
    let mut entries = Entries::default();
    for (i, key) in (0..).zip([b"b", b"d", b"f"]) {
        assert_eq!(entries.add(key, BlockAddr::new(i..i + 1, i)), 0);
    }
    entries.index(Version::V3)
}

/// Keys one after the other in an area, with their pairs.
fn laid_out<K: AsRef<[u8]>>(keys: &[K]) -> (Vec<u64>, Vec<u8>) {
    let (mut pairs, mut bytes) = (Vec::new(), Vec::new());
    for key in keys.iter().map(AsRef::as_ref) {
        pairs.extend([bytes.len() as u64, key.len() as u64]);
        bytes.extend(key);
    }
    (pairs, bytes)
}

/// The parts of an area that pairs name.
fn parts<'a>(pairs: &[u64], bytes: &'a [u8]) -> Vec<&'a [u8]> {
    let part = |pair: &[u64]| &bytes[pair[0] as usize..][..pair[1] as usize];
    pairs.chunks(2).map(part).collect()
}

/// Both forms find what the single lookup finds; the ids after the last key stay.
fn agree<K: AsRef<[u8]>>(index: &Index, keys: &[K]) {
    let each = keys.iter().map(|key| index.locate_with_key(key.as_ref()));
    let each: Vec<Option<u64>> = each.collect();
    assert_eq!(index.locate_with_keys(keys), each);
    for (batch, found) in keys.chunks(MAX_BATCH_KEYS).zip(each.chunks(MAX_BATCH_KEYS)) {
        let (pairs, bytes) = laid_out(batch);
        agree_in_pairs(index, &pairs, &bytes, found);
    }
}

fn agree_in_pairs(index: &Index, pairs: &[u64], bytes: &[u8], found: &[Option<u64>]) {
    let found: Vec<u64> = found.iter().map(|id| id.unwrap_or(NO_ID)).collect();
    for more in [0, 1, 70] {
        let mut ids = vec![77; found.len() + more];
        assert_eq!(index.locate_with_keys_into(pairs, bytes, &mut ids), Ok(()));
        assert_eq!(ids[..found.len()], found);
        assert_eq!(ids[found.len()..], vec![77; more]);
    }
}

/// A separator, what stands beside one, or some key.
fn some_key(draw: &mut Draw, entries: &Entries) -> Vec<u8> {
    let at = draw.below(entries.keys.len() as u64) as usize;
    let mut key = entries.keys[at].clone();
    match draw.below(6) {
        0 => return Vec::new(),
        1 => return draw.key(12),
        2 => key.push(0),
        3 => drop(key.pop()),
        4 => key.extend([0xff; 5]),
        _ => {}
    }
    key
}

#[test]
fn lists_of_every_length() {
    let mut draw = Draw::new(20);
    for n in [2, 3, 127, 128, 129, 1_000, 4_095, 4_096, 4_097, 9_000] {
        let (entries, version) = (draw.entries(n), draw.of(&VERSIONS));
        let bytes = entries.index(version);
        let index = Index::open_unknown_terms(&bytes, version).unwrap();
        for count in (0..=66).chain([127, 128, 129, 500]) {
            let keys: Vec<_> = (0..count).map(|_| some_key(&mut draw, &entries)).collect();
            agree(&index, &keys);
            let model: Vec<_> = keys.iter().map(|key| entries.by_key(key)).collect();
            assert_eq!(index.locate_with_keys(&keys), model);
        }
    }
}

/// Rising, falling, one key many times, all below the first separator, all above the last.
#[test]
fn orders() {
    let mut draw = Draw::new(21);
    for n in [2, 300, 2_000] {
        let (entries, version) = (draw.entries(n), draw.of(&VERSIONS));
        let bytes = entries.index(version);
        let index = Index::open_unknown_terms(&bytes, version).unwrap();
        for count in [1, 63, 64, 65] {
            let mut keys: Vec<_> = (0..count).map(|_| some_key(&mut draw, &entries)).collect();
            keys.sort();
            agree(&index, &keys);
            keys.reverse();
            agree(&index, &keys);
            let one = some_key(&mut draw, &entries);
            agree(&index, &vec![one; count]);
            agree(&index, &vec![""; count]);
            assert_eq!(
                index.locate_with_keys(&vec![""; count]),
                vec![Some(0); count]
            );
            let above = vec![[0xff; 30]; count];
            agree(&index, &above);
            assert_eq!(index.locate_with_keys(&above), vec![None; count]);
        }
    }
}

/// Parts of one area that overlap, begin at one place, or are empty, at its end too.
#[test]
fn parts_of_one_area() {
    let mut draw = Draw::new(22);
    for n in [2, 5, 130, 4_096] {
        let version = draw.of(&VERSIONS);
        let bytes = draw.entries(n).index(version);
        let index = Index::open_unknown_terms(&bytes, version).unwrap();
        for _ in 0..500 {
            let bytes = draw.key(40);
            let len = bytes.len() as u64;
            let count = draw.of(&[0, 1, 2, 7, 8, 63, 64]);
            let mut offsets: Vec<u64> = (0..count).map(|_| draw.below(len + 1)).collect();
            offsets.sort();
            let pair = |&offset: &u64| [offset, draw.below(len - offset + 1)];
            let pairs: Vec<u64> = offsets.iter().flat_map(pair).collect();
            let keys = parts(&pairs, &bytes);
            let found: Vec<_> = keys.iter().map(|key| index.locate_with_key(key)).collect();
            agree_in_pairs(&index, &pairs, &bytes, &found);
            assert_eq!(index.locate_with_keys(&keys), found);
        }
    }
}

/// Keys as long as the longest separators, longer, and much longer.
#[test]
fn long_keys() {
    let mut entries = Entries::default();
    let keys = [vec![b'k'; 1_023], vec![b'k'; 1_024], vec![b'l'; 1_024]];
    for (i, key) in (0..).zip(&keys) {
        assert_eq!(entries.add(key, BlockAddr::new(i..i + 1, i)), 0);
    }
    let bytes = entries.index(Version::V4);
    let index = Index::open_unknown_terms(&bytes, Version::V4).unwrap();
    let mut longer = Vec::new();
    for len in [1_022, 1_023, 1_024, 1_025, 1_026, 5_000] {
        for byte in [b'j', b'k', b'l', b'm'] {
            for last in [0, byte, 0xff] {
                let mut key = vec![byte; len];
                key[len - 1] = last;
                longer.push(key);
            }
        }
    }
    agree(&index, &longer);
    let found = |key: &[u8]| index.locate_with_keys(&[key])[0];
    assert_eq!(found(&[b'k'; 1_024]), Some(1));
    assert_eq!(found(&[b'k'; 1_025]), Some(2));
    assert_eq!(found(&[b'l'; 1_024]), Some(2));
    assert_eq!(found(&[b'l'; 1_025]), None);
}

#[test]
fn the_largest_index() {
    let mut entries = Entries::default();
    let key = |i: u64| u32::to_be_bytes(i as u32);
    entries.keys = (0..65_536).map(|i| key(2 * i).to_vec()).collect();
    entries.blocks = (0..65_536).map(|i| BlockAddr::new(i..i + 1, i)).collect();
    let bytes = entries.index(Version::V4);
    let index = Index::open_unknown_terms(&bytes, Version::V4).unwrap();
    let wanted = |i: u64| (i <= 131_070).then_some(i.div_ceil(2));
    let mut draw = Draw::new(23);
    for count in [1, 7, 8, 63, 64, 65, 1_000] {
        let numbers: Vec<u64> = (0..count).map(|_| draw.below(131_080)).collect();
        let keys: Vec<[u8; 4]> = numbers.iter().map(|&i| key(i)).collect();
        let found: Vec<_> = numbers.iter().map(|&i| wanted(i)).collect();
        assert_eq!(index.locate_with_keys(&keys), found);
        agree(&index, &keys);
    }
    let all: Vec<[u8; 4]> = (0..131_080).map(key).collect();
    assert!(
        index
            .locate_with_keys(&all)
            .into_iter()
            .eq((0..131_080).map(wanted))
    );
}

/// Whatever is bytes is a key.
#[test]
fn kinds_of_keys() {
    let bytes = worked();
    let index = Index::open_unknown_terms(&bytes, Version::V3).unwrap();
    let found = [Some(0), Some(1), None];
    assert_eq!(index.locate_with_keys(&["a", "c", "g"]), found);
    assert_eq!(index.locate_with_keys(&[b"a", b"c", b"g"]), found);
    assert_eq!(index.locate_with_keys(&[&b"a"[..], b"cc", b"g"]), found);
    assert_eq!(
        index.locate_with_keys(&["a", "c", "g"].map(String::from)),
        found
    );
    assert_eq!(
        index.locate_with_keys(&[vec![b'a'], vec![b'c'], vec![b'g']]),
        found
    );
    assert_eq!(index.locate_with_keys::<&str>(&[]), []);
}

#[test]
fn no_keys() {
    let bytes = worked();
    let index = Index::open_unknown_terms(&bytes, Version::V3).unwrap();
    for keys in [&b""[..], b"bd"] {
        assert_eq!(index.locate_with_keys_into(&[], keys, &mut []), Ok(()));
        let mut ids = [77; 3];
        assert_eq!(index.locate_with_keys_into(&[], keys, &mut ids), Ok(()));
        assert_eq!(ids, [77; 3]);
    }
}

/// The list is refused, and the ids stay.
fn refused(pairs: &[u64], keys: &[u8], places: usize) {
    let bytes = worked();
    let index = Index::open_unknown_terms(&bytes, Version::V3).unwrap();
    let mut ids = vec![77; places];
    let answer = index.locate_with_keys_into(pairs, keys, &mut ids);
    assert_eq!(answer, Err(Refusal::KeyList), "{pairs:?} in {keys:?}");
    assert_eq!(ids, vec![77; places]);
}

fn accepted(pairs: &[u64], keys: &[u8], ids: &[u64]) {
    let bytes = worked();
    let index = Index::open_unknown_terms(&bytes, Version::V3).unwrap();
    let mut written = vec![77; ids.len()];
    let answer = index.locate_with_keys_into(pairs, keys, &mut written);
    assert_eq!(
        (answer, &written[..]),
        (Ok(()), ids),
        "{pairs:?} in {keys:?}"
    );
}

#[test]
fn no_26_half_a_pair() {
    for words in [1, 3, 127] {
        refused(&vec![0; words], b"bd", 100);
        accepted(&vec![0; words + 1], b"bd", &vec![0; words.div_ceil(2)]);
    }
    refused(&[0], b"", 0);
}

#[test]
fn no_26_too_many_keys() {
    for count in [65, 66, 200] {
        refused(&vec![0; 2 * count], b"bd", count);
    }
    accepted(&[0; 128], b"bd", &[0; 64]);
    refused(&[0; 129], b"bd", 100);
}

#[test]
fn no_26_beyond_the_bytes() {
    const MOST: u64 = u64::MAX;
    for pair in [
        [0, 4],
        [1, 3],
        [3, 1],
        [4, 0],
        [0, MOST],
        [MOST, 0],
        [MOST, MOST],
        // sums that come round to a place within
        [1, MOST],
        [3, MOST - 1],
        [MOST, 1],
        [MOST - 1, 4],
        [1 << 63, 1 << 63],
        [1 << 32, 0],
        [0, 1 << 32],
    ] {
        refused(&pair, b"bdf", 5);
        // also as the last of some
        refused(&[&[0, 1, 0, 3], &pair[..]].concat(), b"bdf", 5);
    }
    accepted(&[0, 3, 1, 2, 2, 1, 3, 0], b"bdf", &[1, 2, 2, 0]);
    refused(&[0, 1], b"", 5);
    refused(&[1, 0], b"", 5);
    accepted(&[0, 0, 0, 0], b"", &[0, 0]);
}

#[test]
fn no_26_falling_offsets() {
    refused(&[1, 1, 0, 1], b"bdf", 5);
    refused(&[0, 1, 2, 1, 1, 1], b"bdf", 5);
    // an empty key's offset counts too
    refused(&[3, 0, 2, 0], b"bdf", 5);
    let mut pairs = [1; 128];
    accepted(&pairs, b"bdf", &[1; 64]);
    pairs[126] = 0;
    refused(&pairs, b"bdf", 64);
}

#[test]
fn no_26_few_ids() {
    for count in [1, 2, 63, 64] {
        for places in [0, count - 1] {
            refused(&vec![0; 2 * count], b"bd", places);
        }
        accepted(&vec![0; 2 * count], b"bd", &vec![0; count]);
    }
}
