//! Lists of calls drawn at random, against the model.

mod model;

use model::{Draw, Entries, LIMIT, VERSIONS};
use rosmarel::{BlockAddr, Builder, Index, Refusal, Version};

fn number(answer: Result<(), Refusal>) -> u32 {
    answer.map_or_else(Refusal::number, |()| 0)
}

/// A key that is often just above the last separator, sometimes not.
fn next_key(draw: &mut Draw, entries: &Entries) -> Vec<u8> {
    let mut key = entries.keys.last().cloned().unwrap_or_default();
    match draw.below(40) {
        0 => return vec![0xff; draw.of(&[1_025, 2_000])],
        1 => return key,
        2 => return draw.key(6),
        3 if key.len() < 1_000 => {
            key.resize(draw.of(&[1_023, 1_024]), 0);
            return key;
        }
        _ => {}
    }
    // raised at a late place, or longer, so that the list goes on
    let place = (0..key.len().min(40)).rev().find(|&at| key[at] < 0xff);
    match place {
        Some(at) if key.len() > 40 || draw.one_in(2) => {
            key[at] += 1;
            key.truncate(at + 1);
        }
        _ => key.push(draw.of(&[0, 7, b'a', 0xfe])),
    }
    if key.len() < 8 {
        key.extend(draw.key(5));
    }
    key
}

fn next_block(draw: &mut Draw, entries: &Entries, step: u64) -> BlockAddr {
    let last = entries.blocks.last();
    let start = last.map_or_else(|| draw.below(step), |last| last.end);
    let ordinal = last.map_or_else(|| draw.below(step), |last| last.first_ordinal + 1);
    let mut block = BlockAddr::new(start..start + draw.below(step), ordinal + draw.below(step));
    match draw.below(60) {
        0 => block.start = draw.any(),
        4 => (block.start, block.end) = (block.start + 1, block.end + 1),
        1 => block.end = draw.of(&[0, LIMIT - 1, LIMIT, u64::MAX]),
        2 => block.first_ordinal = draw.of(&[0, LIMIT - 1, LIMIT, u64::MAX]),
        3 => block.first_ordinal = ordinal.saturating_sub(1),
        _ => {}
    }
    // so that one large number doesn't end the list
    if block.end == LIMIT - 1 || block.first_ordinal == LIMIT - 1 {
        block.end = LIMIT;
    }
    block
}

#[test]
fn lists_of_calls() {
    let mut draw = Draw::new(1);
    let mut refused = [0u32; 26];
    for round in 0..400 {
        let calls = match round % 5 {
            0 => draw.below(5),
            1 => 125 + draw.below(10),
            2 => 250 + draw.below(20),
            _ => draw.below(600),
        };
        let step = draw.of(&[1, 2, 100, 5_000, 1 << 20, 1 << 33, 1 << 38, 1 << 45]);
        let mut builder = Builder::new();
        let mut entries = Entries::default();
        for _ in 0..calls {
            let key = next_key(&mut draw, &entries);
            let number = if draw.one_in(3) {
                let number = number(builder.shorten_last_block_key_given_next_key(&key));
                assert_eq!(number, entries.shorten(&key));
                number
            } else {
                let block = next_block(&mut draw, &entries, step);
                let number = number(builder.add_block(&key, block));
                assert_eq!(number, entries.add(&key, block));
                number
            };
            refused[number as usize] += 1;
            assert_eq!(builder.len(), entries.blocks.len() as u64);
            let last = entries.keys.last().map(|key| &key[..]);
            assert_eq!(builder.last_separator(), last);
        }
        for version in VERSIONS {
            finish(&mut draw, version, &builder, &entries);
        }
    }
    // each row of add and shorten was met
    assert!(
        [0, 2, 3, 4, 5, 6].iter().all(|&no| refused[no] > 0),
        "{refused:?}"
    );
}

/// The index and the store are the model's.
fn finish(draw: &mut Draw, version: Version, builder: &Builder, entries: &Entries) {
    let bytes = builder.finish(version).unwrap();
    assert_eq!(bytes, entries.index(version));
    assert_eq!(builder.finish_len(version), Ok(bytes.len()));
    let store = rosmarel::store(&entries.blocks, version).unwrap();
    assert_eq!(store, model::store(version, &entries.blocks));
    let checked = rosmarel::check_canonical(&bytes, version);
    if entries.blocks.len() < 2 {
        assert_eq!((&bytes[..], checked), (&[][..], Err(Refusal::Footer)));
    } else {
        assert_eq!(checked, Ok(()));
        look_up(draw, &bytes, version, entries);
    }
}

/// Every lookup gives what the entries give.
fn look_up(draw: &mut Draw, bytes: &[u8], version: Version, entries: &Entries) {
    let least = entries.least_terms();
    let terms = draw.of(&[least, least + 1, least + 500, LIMIT, u64::MAX]);
    let index = Index::open(bytes, version, terms).unwrap();
    assert_eq!(model::open(bytes, version, terms).as_ref(), Ok(entries));
    let n = entries.blocks.len() as u64;
    assert_eq!((index.len(), index.terms()), (n, terms));
    assert_eq!(index.version(), version);
    assert_eq!(index.as_bytes(), bytes);
    for id in (0..n + 2).chain([1 << 32, u64::MAX]) {
        let at = usize::try_from(id).unwrap();
        assert_eq!(index.get_block(id), entries.blocks.get(at).copied());
        let separator = entries.keys.get(at).map(|key| &key[..]);
        assert_eq!(index.separator(id), separator);
        let start = at.checked_sub(1).and_then(|at| entries.keys.get(at));
        let interval = separator.map(|end| (start.map(|key| &key[..]), end));
        assert_eq!(index.interval(id), interval);
    }
    let by_ord = |ord| assert_eq!(index.locate_with_ord(ord), entries.by_ord(ord, terms));
    for block in &entries.blocks {
        by_ord(block.first_ordinal);
        by_ord(block.first_ordinal + 1);
        by_ord(block.first_ordinal.saturating_sub(1));
    }
    by_ord(0);
    by_ord(terms - 1);
    by_ord(terms);
    by_ord(u64::MAX);
    (0..50).for_each(|_| by_ord(draw.below(LIMIT)));
    let mut batch = Vec::new();
    let mut by_key = |key: &[u8]| {
        let id = entries.by_key(key);
        batch.push((key.to_vec(), id));
        assert_eq!(index.locate_with_key(key), id);
        let found = id.map(|id| (id, entries.blocks[id as usize]));
        assert_eq!(index.get_block_with_key(key), found);
    };
    for key in &entries.keys {
        by_key(key);
        by_key(&[&key[..], &[0]].concat());
        by_key(&key[..key.len().saturating_sub(1)]);
    }
    by_key(b"");
    by_key(&[0xff; 3_000]);
    (0..50).for_each(|_| by_key(&draw.key(8)));
    let (keys, ids): (Vec<Vec<u8>>, Vec<Option<u64>>) = batch.into_iter().unzip();
    assert_eq!(index.locate_with_keys(&keys), ids);
    iterate(&index, entries);
}

fn iterate(index: &Index, entries: &Entries) {
    let n = entries.blocks.len();
    let pairs = || (0..).zip(entries.blocks.iter().copied());
    assert!(index.blocks().eq(pairs()));
    assert!(index.into_iter().eq(pairs()));
    let backwards: Vec<(u64, BlockAddr)> = pairs().take(n).collect();
    assert!(index.blocks().rev().eq(backwards.into_iter().rev()));
    assert_eq!(index.blocks().len(), n);
    assert_eq!(index.blocks().nth(n / 2), pairs().nth(n / 2));
    assert_eq!(index.blocks().nth(n), None);
    assert!(index.separators().eq(&entries.keys));
    assert!(index.separators().rev().eq(entries.keys.iter().rev()));
    assert_eq!(index.separators().len(), n);
    assert_eq!(
        index.separators().nth(1),
        entries.keys.get(1).map(|key| &key[..])
    );
}

/// Separators are parts of the bytes that were opened, and live as long as these.
#[test]
fn separators_are_parts() {
    let bytes = Draw::new(2).entries(200).index(Version::V4);
    let separators: Vec<&[u8]> = {
        let index = Index::open_unknown_terms(&bytes, Version::V4).unwrap();
        (0..200).map(|id| index.separator(id).unwrap()).collect()
    };
    let mut place = 4 + 8 * 200;
    for separator in separators {
        assert_eq!(separator.as_ptr(), bytes[place..].as_ptr());
        place += separator.len();
    }
}

/// In one version lists with equal blocks and separators have equal bytes, others differ.
#[test]
fn equal_lists() {
    let mut draw = Draw::new(3);
    for _ in 0..50 {
        let n = 2 + draw.below(300) as usize;
        let entries = draw.entries(n);
        let mut builder = Builder::new();
        for (key, &block) in entries.keys.iter().zip(&entries.blocks) {
            builder.add_block(key, block).unwrap();
        }
        let finished = |builder: &Builder| VERSIONS.map(|version| builder.finish(version).unwrap());
        let before = finished(&builder);
        assert_eq!(before, VERSIONS.map(|version| entries.index(version)));
        let last = entries.blocks[n - 1];
        let more = BlockAddr::new(last.end..last.end, last.first_ordinal + 1);
        builder.add_block(&[0xff; 10], more).unwrap();
        for (bytes, before) in finished(&builder).iter().zip(&before) {
            assert_ne!(bytes, before);
        }
    }
}

#[test]
fn common_prefixes() {
    let mut draw = Draw::new(4);
    for _ in 0..2_000 {
        let (left, right) = (draw.key(6), draw.key(6));
        let len = left.iter().zip(&right).take_while(|(l, r)| l == r).count();
        assert_eq!(rosmarel::common_prefix_len(&left, &right), len);
    }
}

/// An index and its iterators may go to other threads.
#[test]
fn shared_by_threads() {
    let entries = Draw::new(5).entries(1_000);
    let bytes = entries.index(Version::V4);
    let index = Index::open_unknown_terms(&bytes, Version::V4).unwrap();
    std::thread::scope(|scope| {
        for _ in 0..4 {
            scope.spawn(|| {
                assert!(
                    index
                        .blocks()
                        .map(|(_, block)| block)
                        .eq(entries.blocks.iter().copied())
                );
            });
        }
    });
}
