//! Automata: refused ones, and others that mark the blocks of worked.index.

use tantivy_sstable::access::Index;

use crate::folder::Folder;
use model::automaton::{Table, mark, table_hits};
use model::files::worked_file;
use model::opening;
use model::version::V3;

pub fn tables(folder: &mut Folder) {
    refused(folder);
    for (name, what, table) in good() {
        let answer = marks(&table);
        let cell = format!("`{}`", answer.trim_end());
        let file = format!("{name}.automaton");
        folder.case("tables", &file, &table.bytes(), what, &cell);
        folder.put(format!("{name}.expected"), answer.into());
    }
}

/// The marks of the blocks of worked.index as digits, and how many are 1.
fn marks(table: &Table) -> String {
    let bytes = worked_file().bytes();
    let keys = opening::open(V3, &bytes).keys;
    let marked = Index::open(&bytes).get_block_for_automaton(table);
    let mut digits = String::new();
    for (i, key) in keys.iter().enumerate() {
        let start = i.checked_sub(1).map(|i| keys[i].clone());
        let is_marked = marked.contains(&(i as u64));
        assert_eq!(is_marked, mark(table, &(start, key.clone())));
        digits.push(if is_marked { '1' } else { '0' });
    }
    format!("{digits} {}\n", marked.len())
}

fn refused(folder: &mut Folder) {
    let one = Table::new(vec![1], vec![0; 256]).bytes();
    let with = |changes: &[(usize, u8)]| {
        let mut bytes = one.clone();
        for &(at, byte) in changes {
            bytes[at] = byte;
        }
        bytes
    };
    let mut over = vec![0; 1 + 257 * 65];
    over[0] = 65;
    let cases: [(&str, &str, &[(u64, &str)], Vec<u8>); 9] = [
        ("21-empty", "no byte", &[(21, "empty")], vec![]),
        ("21-no-states", "m = 0", &[(21, "no states")], vec![0]),
        (
            "21-65-states",
            "m = 65, all else in order",
            &[(21, "over 64 states")],
            over,
        ),
        (
            "21-length",
            "m = 1 and nothing behind it",
            &[(21, "length")],
            vec![1],
        ),
        (
            "21-one-byte-short",
            "m = 1, a byte too few",
            &[(21, "length")],
            one[..257].to_vec(),
        ),
        (
            "21-one-byte-more",
            "m = 1, a byte too many",
            &[(21, "length")],
            [&one[..], &[0]].concat(),
        ),
        (
            "22-flag",
            "m = 1, its flag 2",
            &[(22, "flag")],
            with(&[(1, 2)]),
        ),
        (
            "22-before-23",
            "m = 1, its flag 2, a next state 1",
            &[(22, "flag"), (23, "next state")],
            with(&[(1, 2), (2, 1)]),
        ),
        (
            "23-next-state",
            "m = 1, the last next state 1",
            &[(23, "next state")],
            with(&[(257, 1)]),
        ),
    ];
    for (name, what, hits, bytes) in cases {
        assert_eq!(table_hits(&bytes), hits, "{name}");
        let answer = format!("refused {}", hits[0].0);
        let file = format!("{name}.automaton");
        folder.case(
            "refused tables",
            &file,
            &bytes,
            what,
            &format!("`{answer}`"),
        );
        folder.put(format!("{name}.expected"), format!("{answer}\n").into());
    }
}

/// A table of 64 states, met in no order, that accepts 62 times `c` alone.
fn chain() -> Table {
    let number = |k: usize| k * 25 % 64;
    let dead = number(63);
    let mut flags = vec![0; 64];
    flags[number(62)] = 1;
    let mut next = vec![dead as u8; 256 * 64];
    for k in 0..62 {
        next[256 * number(k) + usize::from(b'c')] = number(k + 1) as u8;
    }
    Table::new(flags, next)
}

fn good() -> Vec<(&'static str, &'static str, Table)> {
    let mut last = vec![0; 64];
    last[63] = 1;
    vec![
        (
            "all",
            "one state: every byte string",
            Table::new(vec![1], vec![0; 256]),
        ),
        (
            "nothing",
            "one state: none",
            Table::new(vec![0], vec![0; 256]),
        ),
        (
            "only-empty",
            "the empty byte string alone, which block 0 lets in",
            Table::words(&[b""]),
        ),
        (
            "only-b",
            "`b` alone: a separator belongs to its own block",
            Table::words(&[b"b"]),
        ),
        (
            "only-c",
            "`c` alone, as in docs/FORMAT.md",
            Table::words(&[b"c"]),
        ),
        (
            "only-g",
            "`g` alone, above the last separator",
            Table::words(&[b"g"]),
        ),
        (
            "begins-with-d",
            "all that begins with `d`",
            Table::beginning(b"d"),
        ),
        (
            "unreached",
            "two states; the accepting one can't be reached",
            Table::rule(vec![0, 1], |state, _| state),
        ),
        (
            "64-states",
            "64 states met in no order: 62 times `c` alone",
            chain(),
        ),
        (
            "64-ring",
            "64 states in a ring: all byte strings whose length is 63 more than a multiple of 64",
            Table::rule(last, |state, _| (state + 1) % 64),
        ),
    ]
}
