//! Listings and examples against a plain search.

mod model;

use model::{Draw, VERSIONS};
use rosmarel::{Automaton, BlockAddr, Builder, Index, Refusal, Version};

#[test]
fn listings() {
    let mut draw = Draw::new(20);
    let mut counts = [0usize; 3];
    for round in 0..150 {
        let n = 2 + draw.below(if round % 10 == 0 { 300 } else { 20 }) as usize;
        let entries = draw.entries(n);
        let version = draw.of(&VERSIONS);
        let bytes = entries.index(version);
        let index = Index::open_unknown_terms(&bytes, version).unwrap();
        for _ in 0..4 {
            let table = draw.table();
            let automaton = Automaton::from_table(&table).unwrap();
            let ids = entries.listed(&table);
            let wanted: Vec<(u64, BlockAddr)> = ids
                .iter()
                .map(|&id| (id, entries.blocks[id as usize]))
                .collect();
            let listing = index.get_block_for_automaton(&automaton);
            assert_eq!(listing.len(), wanted.len());
            assert_eq!(listing.clone().count(), wanted.len());
            assert!(listing.clone().eq(wanted.iter().copied()));
            assert!(listing.clone().rev().eq(wanted.iter().rev().copied()));
            both_ends(listing, &wanted);
            counts[match ids.len() {
                0 => 0,
                all if all == n => 1,
                _ => 2,
            }] += 1;
            for id in 0..n as u64 {
                let (start, end) = index.interval(id).unwrap();
                let marked = ids.contains(&id);
                assert_eq!(automaton.can_block_match(start, end), marked);
                assert_eq!(example(&automaton, start, end), marked);
            }
        }
    }
    // none, all and some
    assert!(counts.iter().all(|&count| count > 20), "{counts:?}");
}

/// Taken from the front and the back in turn, each block comes once.
fn both_ends(mut listing: rosmarel::Listing, wanted: &[(u64, BlockAddr)]) {
    let (mut front, mut back) = (Vec::new(), Vec::new());
    while let Some(block) = listing.next() {
        front.push(block);
        back.extend(listing.next_back());
        assert_eq!(listing.len(), wanted.len() - front.len() - back.len());
    }
    assert_eq!((listing.next(), listing.next_back()), (None, None));
    front.extend(back.into_iter().rev());
    assert_eq!(front, wanted);
}

/// The example is what the plain search finds first, and none where that finds none. Whether there is one.
fn example(automaton: &Automaton, start: Option<&[u8]>, end: &[u8]) -> bool {
    let first = model::first_between(automaton.as_table(), start, end);
    assert_eq!(automaton.example(start, end), first);
    first.is_some()
}

/// Intervals of any two keys, also with the start not below the end.
#[test]
fn intervals() {
    let mut draw = Draw::new(21);
    let mut counts = [0; 2];
    for _ in 0..3_000 {
        let table = draw.table();
        let automaton = Automaton::from_table(&table).unwrap();
        let end = draw.key(6);
        let start = match draw.below(4) {
            0 => None,
            1 => Some(end.clone()),
            _ => Some(draw.key(6)),
        };
        let start = start.as_deref();
        let matches = example(&automaton, start, &end);
        assert_eq!(automaton.can_block_match(start, &end), matches);
        counts[usize::from(matches)] += 1;
    }
    assert!(counts.iter().all(|&count| count > 300), "{counts:?}");
}

#[test]
fn accepted_keys() {
    let mut draw = Draw::new(22);
    for _ in 0..500 {
        let table = draw.table();
        let automaton = Automaton::from_table(&table).unwrap();
        assert_eq!(automaton.as_table(), table);
        assert_eq!(automaton.states(), usize::from(table[0]));
        for _ in 0..20 {
            let key = draw.key(12);
            assert_eq!(automaton.accepts(&key), model::accepts(&table, &key));
        }
    }
}

/// These keys alone.
fn one_of(keys: &[&[u8]]) -> Automaton {
    Automaton::explore(
        Some(Vec::new()),
        |read| matches!(read, Some(read) if keys.contains(&&read[..])),
        |read, byte| {
            let longer = [read.as_deref()?, &[byte]].concat();
            let is_front = keys.iter().any(|key| key.starts_with(&longer));
            is_front.then_some(longer)
        },
    )
    .unwrap()
}

/// Keys whose length is so much more than a multiple of 64. All 64 states are on one ring.
fn lengths(of: usize) -> Automaton {
    Automaton::from_fn(64, |state| state == of, |state, _| (state + 1) % 64).unwrap()
}

/// Accepted keys, start, end, and the example.
type Case = (
    &'static [&'static [u8]],
    Option<&'static [u8]>,
    &'static [u8],
    &'static [u8],
);

/// Shorter comes before lower, and lower decides between equal lengths: wherever in the interval the keys lie.
#[test]
fn the_shortest_then_the_lowest() {
    let cases: &[Case] = &[
        // the shortest isn't the lowest; a prefix of an accepted key
        (&[b"aa", b"b"], None, b"c", b"b"),
        (&[b"ba", b"bac", b"aba"], Some(b"a"), b"c", b"ba"),
        // along the start, a later place is lower
        (&[b"bc", b"ca"], Some(b"bb"), b"d", b"bc"),
        (&[b"abd", b"acd", b"bcd"], Some(b"abc"), b"c", b"abd"),
        (&[b"abcd", b"acd"], Some(b"abc"), b"c", b"acd"),
        (&[b"bb", b"bba"], Some(b"bb"), b"d", b"bba"),
        // along the start, between the keys, along the end
        (&[b"ay", b"b!", b"ca"], Some(b"ax"), b"cx", b"ay"),
        (&[b"ax", b"b!", b"ca"], Some(b"ax"), b"cx", b"b!"),
        (&[b"ax", b"ca", b"cx"], Some(b"ax"), b"cx", b"ca"),
        (&[b"ayy", b"b", b"ca"], Some(b"ax"), b"cx", b"b"),
        (&[b"ayy", b"bbb", b"ca"], Some(b"ax"), b"cx", b"ca"),
        (&[b"ayy", b"bbb", b"c"], Some(b"ax"), b"cx", b"c"),
        // along the end, an earlier place is lower, and what leaves it lies below what goes on
        (&[b"acc", b"bac", b"bba"], None, b"bbb", b"acc"),
        (&[b"bac", b"bba", b"bbb"], None, b"bbb", b"bac"),
        (&[b"ba", b"bb"], None, b"bb", b"ba"),
        (&[b"bb", b"bc"], None, b"bb", b"bb"),
        (&[b"bab", b"bb"], Some(b"b"), b"bb", b"bb"),
        // the empty key
        (&[b"", b"a"], None, b"b", b""),
        (&[b"", b"a"], Some(b""), b"b", b"a"),
    ];
    for &(keys, start, end, first) in cases {
        let automaton = one_of(keys);
        assert_eq!(automaton.example(start, end).as_deref(), Some(first));
        assert!(example(&automaton, start, end));
    }
    assert!(!example(&one_of(&[b"b", b"c"]), Some(b"c"), b"b"));
    assert!(!example(&one_of(&[b"b", b"c"]), Some(b"b"), b"bz"));
}

/// All places along the start give keys of one length: the last place counts that leaves it upwards.
#[test]
fn ties_along_the_start() {
    for of in 1..64 {
        let start = vec![b'm'; of];
        let mut first = start.clone();
        first[of - 1] += 1;
        assert_eq!(lengths(of).example(Some(&start), b"z"), Some(first));
    }
    let first = [&b"am"[..], &[0; 61]].concat();
    let start = [&b"al"[..], &[0xff; 98]].concat();
    assert_eq!(lengths(63).example(Some(&start), b"z"), Some(first));
}

/// Lengths of 2 modulo 64: above 61 FF and not above 62 only 61 FF and 64 bytes more will do.
#[test]
fn example_without_room_to_spare() {
    let key = lengths(2).example(Some(b"a\xff"), b"b").unwrap();
    assert_eq!(key, [&b"a\xff"[..], &[0; 64]].concat());
}

/// States in an order that needs more than one walk over them, all 64.
#[test]
fn path_through_all_states() {
    let order = |state: usize| (state * 27) % 64;
    let mut next = [0; 64];
    (0..63).for_each(|step| next[order(step)] = order(step + 1));
    let last = order(63);
    let path = Automaton::from_fn(64, |state| state == last, |state, _| next[state]).unwrap();
    assert!(path.can_block_match(None, &[0xff; 70]));
    assert_eq!(path.example(None, &[0xff; 70]), Some(vec![0; 63]));
    assert!(!path.can_block_match(None, b""));
}

/// Keys have any length.
#[test]
fn long_keys() {
    let long = vec![0x61; 100_000];
    let any = Automaton::from_fn(1, |_| true, |_, _| 0).unwrap();
    assert!(any.can_block_match(Some(&long[1..]), &long));
    let mut first = long.clone();
    first[99_999] = 0;
    assert_eq!(any.example(Some(&long[1..]), &long), Some(first));
    assert!(!any.can_block_match(Some(&long), &long));
}

/// A closure over states of any type gives the table that was meant.
#[test]
fn explored() {
    let word = b"abc";
    let explored = Automaton::explore(
        Some(0),
        |state| *state == Some(3),
        |state, byte| {
            state
                .filter(|&at| word.get(at) == Some(&byte))
                .map(|at| at + 1)
        },
    )
    .unwrap();
    let counted = Automaton::from_fn(
        5,
        |state| state == 3,
        |state, byte| {
            if word.get(state) == Some(&byte) {
                state + 1
            } else {
                4
            }
        },
    )
    .unwrap();
    let mut draw = Draw::new(23);
    for _ in 0..500 {
        let key = draw.key(4);
        assert_eq!(explored.accepts(&key), counted.accepts(&key));
        assert_eq!(explored.accepts(&key), key == word);
    }
    assert_eq!(explored.states(), 5);
}

#[test]
fn empty_separator() -> Result<(), Refusal> {
    let mut builder = Builder::new();
    builder.add_block(b"", BlockAddr::new(0..1, 0))?;
    builder.add_block(b"a", BlockAddr::new(1..2, 1))?;
    let bytes = builder.finish(Version::V3)?;
    let index = Index::open_unknown_terms(&bytes, Version::V3)?;
    assert_eq!(index.separator(0), Some(&b""[..]));
    let empty = Automaton::from_fn(2, |state| state == 0, |_, _| 1)?;
    let ids: Vec<u64> = index
        .get_block_for_automaton(&empty)
        .map(|(id, _)| id)
        .collect();
    assert_eq!(ids, [0]);
    Ok(())
}
