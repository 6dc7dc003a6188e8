//! Automata that are refused: rows 21 to 23, and two rows at once.

use model::automaton::{Interval, Table, room};
use model::files::worked_file;

use crate::patterns::Patterns;

/// A place of an automaton's bytes, and what is put there.
type Change = (usize, u8);

/// Each call, with room and without.
fn calls(patterns: &mut Patterns) {
    let inside: Interval = (Some(b"b".to_vec()), b"d".to_vec());
    let empty: Interval = (None, vec![]);
    patterns.both(&inside);
    patterns.block(&empty);
    patterns.example(&inside, room(&inside) - 1);
    patterns.example(&empty, 0);
    for room in [patterns.n(), patterns.n() - 1, 0] {
        patterns.listing(room);
    }
}

fn put(patterns: &mut Patterns, changes: &[Change]) {
    for &(at, byte) in changes {
        patterns.change(at, &[byte]);
    }
}

/// The calls on the automaton with some bytes changed; they are put back.
fn changed(patterns: &mut Patterns, no: u64, changes: &[Change]) {
    let before: Vec<Change> = changes
        .iter()
        .map(|&(at, _)| (at, patterns.bytes()[at]))
        .collect();
    put(patterns, changes);
    assert_eq!(patterns.no(), no);
    calls(patterns);
    put(patterns, &before);
}

pub fn tables(patterns: &mut Patterns) {
    patterns.comment("refused automata: no bytes, no states, one state; the file is the one that document 01 works by hand");
    assert_eq!(patterns.open(&worked_file().bytes()), 0);
    let one = Table::new(vec![1], vec![0; 256]).bytes();
    for bytes in [
        vec![],
        vec![0],
        vec![0; 2],
        vec![0; 258],
        vec![1],
        vec![1, 1],
        vec![1; 3],
        vec![64],
        vec![65],
        vec![255, 0],
        one[..257].to_vec(),
        [&one[..], &[0]].concat(),
        [&one[..], &[1]].concat(),
        [&one[..], &one[1..]].concat(),
    ] {
        patterns.set_bytes(&bytes);
        assert_eq!(patterns.no(), 21);
        calls(patterns);
    }
    patterns.set_bytes(&one);
    calls(patterns);
    beside(patterns);
    patterns.comment("refused automata: three states, and 64");
    patterns.set_runs(&Table::words(&[b"c"]));
    calls(patterns);
    beside(patterns);
    let mut flags = vec![0; 64];
    flags[63] = 1;
    patterns.set_rule(&flags, (1, 1, 256));
    calls(patterns);
    beside(patterns);
    patterns.comment("refused automata: too many states");
    for m in [65, 128, 255] {
        patterns.set_rule(&vec![1; m], (1, 1, 256));
        assert_eq!(patterns.no(), 21);
        calls(patterns);
        let last = patterns.bytes().len() - 1;
        changed(patterns, 21, &[(m, 2)]);
        if m < 255 {
            changed(patterns, 21, &[(last, 255)]);
        }
        patterns.cut(last);
        calls(patterns);
    }
}

/// The current automaton, which is taken: with flags and next states beyond, with one byte less and one more.
fn beside(patterns: &mut Patterns) {
    assert_eq!(patterns.no(), 0);
    let length = patterns.bytes().len();
    let (last, m) = (length - 1, patterns.bytes()[0]);
    let next = 1 + usize::from(m);
    for (no, changes) in [
        (22, &[(1, 2)][..]),
        (22, &[(next - 1, 2)]),
        (22, &[(next - 1, 255)]),
        (23, &[(next, m)]),
        (23, &[(last, m)]),
        (23, &[(last, 255)]),
        (22, &[(next - 1, 2), (next, m)]),
        (22, &[(1, 3), (last, 255)]),
        (21, &[(0, m - 1)]),
        (21, &[(0, m + 1)]),
        (21, &[(0, 0)]),
        (0, &[(1, 1), (last, m - 1)]),
    ] {
        changed(patterns, no, changes);
    }
    let end = patterns.bytes()[last];
    patterns.cut(last);
    calls(patterns);
    changed(patterns, 21, &[(1, 2)]);
    changed(patterns, 21, &[(next, m)]);
    put(patterns, &[(last, end)]);
    for byte in [0, m] {
        put(patterns, &[(length, byte)]);
        assert_eq!(patterns.no(), 21);
        calls(patterns);
    }
    patterns.cut(length);
    assert_eq!(patterns.no(), 0);
}
