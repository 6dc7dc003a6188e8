//! The patterns, and the Rust's automaton over their tables.

use rosmarel_bench::patterns::*;
use tantivy_fst::Automaton;

#[test]
fn patterns_accept_what_they_say() {
    let accepts = |table: &[u8], key: &[u8]| Table::read(table).unwrap().accepts(key);
    assert!(accepts(&contains(b'7'), b"a7b") && !accepts(&contains(b'7'), b"ab"));
    assert!(accepts(&begins(b"ab"), b"abc") && !accepts(&begins(b"ab"), b"aab"));
    assert!(accepts(&exactly(b"ab"), b"ab") && !accepts(&exactly(b"ab"), b"abc"));
    assert!(accepts(&length_64(), &[0; 63]) && !accepts(&length_64(), &[0; 64]));
    assert!(accepts(&letters_then(b"12"), b"ab12m") && !accepts(&letters_then(b"12"), b"ab13"));
    assert!(accepts(&follow_few(), b"ab12m!") && !accepts(&follow_few(), b"ab12m"));
    assert!(accepts(&follow(2), b"a00000002mm!") && !accepts(&follow(2), b"a00000002m!"));
    assert!(!accepts(&follow(2), b"a00000003mm!") && follow(54)[0] == 64);
    assert!(accepts(&two_rings(2), b"amm!") && accepts(&two_rings(2), b"b~"));
    assert!(!accepts(&two_rings(2), b"am!") && !accepts(&two_rings(2), b"a~"));
    assert!(!accepts(&two_rings(2), b"b!") && two_rings(30)[0] == 63);
    let dense = dense_64();
    let each_state = |row: &[u8]| (0..64).all(|state| row.contains(&state));
    assert!(dense[0] == 64 && dense[65..].chunks(256).all(each_state));
    let words = words_64(&[b"ab", b"ac", b"b"]);
    assert!(words[0] == 64 && accepts(&words, b"ac") && !accepts(&words, b"a"));
}

/// Which states can match, plainly: each of m rounds looks at all next states.
fn plain_live(table: &[u8]) -> Vec<bool> {
    let m = usize::from(table[0]);
    let (flags, next) = table[1..].split_at(m);
    let mut live: Vec<bool> = flags.iter().map(|&flag| flag == 1).collect();
    for _ in 0..m {
        for (state, row) in next.chunks(256).enumerate() {
            live[state] |= row.iter().any(|&to| live[usize::from(to)]);
        }
    }
    live
}

#[test]
fn the_states_that_can_match() {
    let downwards = table(&[0, 0, 0, 1, 0], |state, byte| match (state, byte) {
        (0, b'x') => 1,
        (1, 255) => 2,
        (2, 0) => 3,
        _ => 4,
    });
    // from state 3 down to 0, which accepts; 4 leads nowhere
    let upwards = table(&[1, 0, 0, 0, 0], |state, byte| match (state, byte) {
        (1..=3, b'z') => state - 1,
        _ => 4,
    });
    let mut tables = vec![downwards, upwards, all(), begins(b"ab"), length_64()];
    tables.extend([dense_64(), follow(54), words_64(&[b"ab", b"c"])]);
    for table in tables {
        let automaton = Table::read(&table).unwrap();
        let live: Vec<bool> = (0..table[0])
            .map(|state| automaton.can_match(&state))
            .collect();
        assert_eq!(live, plain_live(&table));
    }
}

#[test]
fn broken_tables_are_refused() {
    let good = begins(b"ab");
    for (place, byte) in [(0, 0), (0, 65), (1, 2), (300, 200)] {
        let mut broken = good.clone();
        broken[place] = byte;
        assert!(Table::read(&broken).is_none());
    }
}

#[test]
fn depth_is_how_much_of_a_key_is_read() {
    let table = exactly(b"abc");
    let depth = Depth::new(Table::read(&table).unwrap());
    let state = depth.accept(&depth.accept(&depth.start(), b'a'), b'b');
    depth.accept(&state, b'z');
    assert_eq!(depth.most(), 2);
    depth.forget();
    assert_eq!(depth.most(), 0);
}
