//! The plain search finds what an even plainer one finds.

use std::collections::HashSet;

use rosmarel_bench::inputs::Numbers;
use rosmarel_bench::patterns::{Table, exactly, length_64, table, two_rings};
use rosmarel_bench::search;
use tantivy_fst::Automaton;

type Interval<'a> = (Option<&'a [u8]>, &'a [u8]);

/// The fronts that were tried: how long one is, where it leads, and whether it is a front of either key.
type Tried = HashSet<(usize, u8, [bool; 2])>;

/// Makes of a front, which leads to the state, the lowest accepted string of the interval with so many bytes, if there is one.
fn lengthen(
    automaton: &Table,
    interval: Interval,
    len: usize,
    tried: &mut Tried,
    front: &mut Vec<u8>,
    state: u8,
) -> bool {
    let (start, end) = interval;
    let of_start = start.is_some_and(|start| start.starts_with(front));
    let below = start.is_some_and(|start| &front[..] < start) && !of_start;
    let fronts = [of_start, end.starts_with(front)];
    if below || &front[..] > end || !tried.insert((front.len(), state, fronts)) {
        return false;
    }
    if front.len() == len {
        return automaton.is_match(&state) && !of_start;
    }
    for byte in 0..=255 {
        let next = automaton.accept(&state, byte);
        front.push(byte);
        if lengthen(automaton, interval, len, tried, front, next) {
            return true;
        }
        front.pop();
    }
    false
}

/// For each length in turn the lowest string of it.
fn plainer(interval: Interval, automaton: &Table, most: usize) -> Option<Vec<u8>> {
    (0..=most).find_map(|len| {
        let (mut tried, mut string) = (Tried::new(), Vec::new());
        lengthen(automaton, interval, len, &mut tried, &mut string, 0).then_some(string)
    })
}

fn found((start, end): Interval, automaton: &Table) -> Option<Vec<u8>> {
    let longer = end.len().max(start.map_or(0, <[u8]>::len));
    let mut out = vec![7; longer + 64];
    let len = search::first(start, end, automaton, &mut out)?;
    assert!(out[len..].iter().all(|&byte| byte == 7));
    out.truncate(len);
    Some(out)
}

/// A table of up to six states in which few bytes count.
fn some_table(numbers: &mut Numbers) -> Vec<u8> {
    let m = 1 + numbers.below(6);
    let flags: Vec<u8> = (0..m).map(|_| u8::from(numbers.below(4) == 0)).collect();
    let nexts: Vec<[usize; 6]> = (0..m).map(|_| [0; 6].map(|_| numbers.below(m))).collect();
    table(&flags, |state, byte| {
        let place = BYTES.iter().position(|&one| one == byte);
        nexts[state][place.unwrap_or(5)]
    })
}

const BYTES: [u8; 5] = [0, b'a', b'b', b'c', 255];

fn some_key(numbers: &mut Numbers) -> Vec<u8> {
    let len = numbers.below(5);
    (0..len).map(|_| BYTES[numbers.below(5)]).collect()
}

#[test]
fn the_first_string_of_an_interval() {
    let mut numbers = Numbers(7);
    let mut counts = [0; 3];
    for _ in 0..200 {
        let bytes = some_table(&mut numbers);
        let automaton = Table::read(&bytes).unwrap();
        let front = some_key(&mut numbers);
        let shared = &front[..front.len() / 2];
        let mut keys = [(); 2].map(|()| [shared, &some_key(&mut numbers)].concat());
        keys.sort();
        let [start, end] = &keys;
        let start = (numbers.below(4) > 0).then_some(&start[..]);
        let interval = (start, &end[..]);
        let first = plainer(interval, &automaton, 12);
        assert_eq!(found(interval, &automaton), first, "{interval:?} {bytes:?}");
        counts[first.map_or(0, |first| 1 + usize::from(first.len() > 2))] += 1;
    }
    // none, short ones and longer ones
    assert!(counts.iter().all(|&count| count > 20), "{counts:?}");
}

#[test]
fn intervals_by_hand() {
    let lengths = length_64();
    let lengths = Table::read(&lengths).unwrap();
    let longest = [&[b'a'; 63][..], &[0; 64]].concat();
    let mut tie = vec![b'a'; 63];
    assert_eq!(found((Some(&tie), b"a"), &lengths), None);
    assert_eq!(found((None, b""), &lengths), None);
    assert_eq!(
        found((Some(&[0xff; 62]), &[0xff; 63]), &lengths),
        Some([&[0xff; 62][..], &[0]].concat())
    );
    assert_eq!(found((Some(&tie), &longest), &lengths), Some(longest));
    tie[62] = b'b';
    assert_eq!(found((Some(&[b'a'; 63]), b"z"), &lengths), Some(tie));
    let word = exactly(b"bc");
    let word = Table::read(&word).unwrap();
    assert_eq!(found((Some(b"b"), b"bc"), &word), Some(b"bc".to_vec()));
    assert_eq!(found((Some(b"bc"), b"bd"), &word), None);
    assert_eq!(found((Some(b"c"), b"b"), &word), None);
    let rings = two_rings(2);
    let rings = Table::read(&rings).unwrap();
    assert_eq!(found((Some(b"ammz"), b"bmmm"), &rings), None);
    assert_eq!(
        found((Some(b"ammm"), b"bmmm"), &rings),
        Some(b"ammmm!".to_vec())
    );
    assert_eq!(
        found((Some(b"ammz"), b"bmm\x7f"), &rings),
        Some(b"bmm~".to_vec())
    );
}
