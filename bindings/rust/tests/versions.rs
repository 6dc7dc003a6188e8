//! Both versions: groups of 128 blocks and of 256, files of one opened with the other, and numbers that are no version.

mod model;

use model::{Draw, Entries, VERSIONS};
use rosmarel::{Automaton, BlockAddr, Builder, Index, Refusal, Version};

/// Sizes around one group and two groups of either version.
const SIZES: [usize; 11] = [2, 127, 128, 129, 255, 256, 257, 511, 512, 513, 1_025];

fn builder(entries: &Entries) -> Builder {
    let mut builder = Builder::new();
    for (key, &block) in entries.keys.iter().zip(&entries.blocks) {
        builder.add_block(key, block).unwrap();
    }
    builder
}

/// Lists of these sizes, two of each.
fn lists() -> Vec<Entries> {
    let mut draw = Draw::new(50);
    let sizes = SIZES.into_iter().chain(SIZES);
    sizes.map(|n| draw.entries(n)).collect()
}

/// Finish, its length, the store and the check, which are the model's; then every block by its id, ordinal and key.
#[test]
fn round_trips() {
    for entries in lists() {
        for version in VERSIONS {
            let bytes = builder(&entries).finish(version).unwrap();
            assert_eq!(bytes, entries.index(version));
            let len = builder(&entries).finish_len(version);
            assert_eq!(len, Ok(bytes.len()));
            let store = rosmarel::store(&entries.blocks, version).unwrap();
            assert_eq!(store, model::store(version, &entries.blocks));
            assert_eq!(rosmarel::check_canonical(&bytes, version), Ok(()));
            let terms = entries.least_terms() + 7;
            let index = Index::open(&bytes, version, terms).unwrap();
            assert_eq!((index.version(), index.terms()), (version, terms));
            find_all(&index, &entries);
        }
    }
}

fn find_all(index: &Index, entries: &Entries) {
    assert_eq!(index.len(), entries.blocks.len() as u64);
    for (id, (key, &block)) in (0..).zip(entries.keys.iter().zip(&entries.blocks)) {
        let found = Some((id, block));
        assert_eq!(index.get_block(id), Some(block));
        assert_eq!(index.locate_with_ord(block.first_ordinal), found);
        assert_eq!(index.get_block_with_key(key), found);
        assert_eq!(index.separator(id), Some(&key[..]));
        let before = block.first_ordinal.wrapping_sub(1);
        let due = entries.by_ord(before, index.terms());
        assert_eq!(index.locate_with_ord(before), due);
    }
    assert_eq!(index.get_block(index.len()), None);
    assert_eq!(index.locate_with_ord(index.terms()), None);
    let any = Automaton::from_fn(1, |_| true, |_, _| 0).unwrap();
    assert!(index.get_block_for_automaton(&any).eq(index.blocks()));
    let ids = index.locate_with_keys(&entries.keys);
    assert!(ids.into_iter().eq((0..index.len()).map(Some)));
}

/// How many group records a file has.
fn records(bytes: &[u8]) -> usize {
    let word = |at: usize| u64::from_le_bytes(bytes[at..at + 8].try_into().unwrap()) as usize;
    word(word(bytes.len() - 8)) / 36
}

#[test]
fn groups_have_128_blocks_or_256() {
    for entries in lists() {
        let n = entries.keys.len();
        for (version, group_len) in VERSIONS.into_iter().zip([128, 256]) {
            assert_eq!(version.group_len(), group_len);
            let bytes = builder(&entries).finish(version).unwrap();
            assert_eq!(records(&bytes), n.div_ceil(group_len));
        }
    }
}

/// Up to 128 blocks both versions have the same bytes, and open with each other; above that they don't (14).
#[test]
fn with_the_other_version() {
    for entries in lists() {
        let few = entries.keys.len() <= 128;
        let [three, four] = VERSIONS.map(|version| builder(&entries).finish(version).unwrap());
        assert_eq!(three == four, few);
        let stores = VERSIONS.map(|version| rosmarel::store(&entries.blocks, version).unwrap());
        assert_eq!(stores[0] == stores[1], few);
        for (bytes, version) in [(three, Version::V3), (four, Version::V4)] {
            let other = model::other(version);
            let due = if few {
                Ok(())
            } else {
                Err(Refusal::GroupRecords)
            };
            assert_eq!(rosmarel::check_canonical(&bytes, other), due);
            let unknown = Index::open_unknown_terms(&bytes, other);
            assert_eq!(unknown.map(|_| ()), due);
            // 28 after the file's own faults
            let low = Index::open(&bytes, other, 0).unwrap_err();
            assert_eq!(low, due.err().unwrap_or(Refusal::TooFewTerms));
            if few {
                let terms = entries.least_terms() + 7;
                let index = Index::open(&bytes, other, terms).unwrap();
                assert_eq!(index.version(), other);
                find_all(&index, &entries);
            }
        }
    }
}

/// A file with a byte behind its groups isn't one that finish writes, and has its version all the same.
#[test]
fn foreign_files_have_one_version() {
    let entries = Draw::new(51).entries(300);
    for version in VERSIONS {
        let mut bytes = entries.index(version);
        bytes.insert(bytes.len() - 8, 0);
        let index = Index::open(&bytes, version, u64::MAX).unwrap();
        find_all(&index, &entries);
        let checked = rosmarel::check_canonical(&bytes, version);
        assert_eq!(checked, Err(Refusal::NotCanonical));
        let other = model::other(version);
        let refused = Err(Refusal::GroupRecords);
        assert_eq!(Index::open(&bytes, other, u64::MAX).map(|_| ()), refused);
        assert_eq!(rosmarel::check_canonical(&bytes, other), refused);
    }
}

/// One builder, finished in one version, then in the other, then in the first again.
#[test]
fn finished_in_turn() {
    let entries = Draw::new(52).entries(400);
    let mut builder = builder(&entries);
    let finished = |builder: &Builder| VERSIONS.map(|version| builder.finish(version).unwrap());
    let before = finished(&builder);
    assert_eq!(finished(&builder), before);
    let last = entries.blocks[399];
    let more = BlockAddr::new(last.end..last.end + 1, last.first_ordinal + 1);
    builder.add_block(&[0xff; 10], more).unwrap();
    let mut out = vec![0x5a; before[0].len() + 500];
    for (version, bytes) in VERSIONS.into_iter().zip(finished(&builder)) {
        out.fill(0x5a);
        let answer = builder.finish_into(version, &mut out);
        assert_eq!(answer, Ok(bytes.len()));
        assert_eq!(out[..bytes.len()], bytes);
        assert!(out[bytes.len()..].iter().all(|&byte| byte == 0x5a));
    }
}

/// Blocks up to the limit, in steps around and above 2^32.
#[test]
fn steps_up_to_the_limit() {
    let step = model::LIMIT / 600;
    let mut entries = Entries::default();
    let mut draw = Draw::new(53);
    for i in 0..600u64 {
        let place = |draw: &mut Draw| i * step + draw.below(step);
        let (end, ordinal) = (place(&mut draw), place(&mut draw));
        let start = entries.blocks.last().map_or(0, |last| last.end);
        let block = BlockAddr::new(start..end, ordinal);
        assert_eq!(entries.add(&u32::to_be_bytes(i as u32), block), 0);
    }
    for version in VERSIONS {
        let bytes = builder(&entries).finish(version).unwrap();
        assert_eq!(bytes, entries.index(version));
        let index = Index::open_unknown_terms(&bytes, version).unwrap();
        find_all(&index, &entries);
    }
}

#[test]
fn numbers_of_versions() {
    let far = [1 << 32, 1 << 32 | 3, 1 << 63 | 4, u64::MAX - 1, u64::MAX];
    for number in (0..1_000).chain(far) {
        let version = Version::from_number(number);
        assert_eq!(Version::try_from(number), version);
        match number {
            3 => assert_eq!(version, Ok(Version::V3)),
            4 => assert_eq!(version, Ok(Version::V4)),
            _ => assert_eq!(version, Err(Refusal::UnknownVersion)),
        }
    }
    for version in VERSIONS {
        assert_eq!(Version::from_number(version.number()), Ok(version));
        assert_eq!(u64::from(version), version.number());
    }
    assert_eq!(Refusal::UnknownVersion.number(), 30);
}
