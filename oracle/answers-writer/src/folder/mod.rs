//! The folder vectors/: small files for the tests of other producers, each with its expected answer.

mod foreign;
mod good;
mod one_way;
mod refused;
mod tables;
mod version_4;

use std::collections::BTreeSet;
use std::fmt::Write;
use std::fs;
use std::path::Path;

use crate::indexes;
use crate::text::hex;
use model::around;
use model::canonical::{self, NOT_CANONICAL};
use model::numbers::Numbers;
use model::opening::{self, Opening};
use model::rust::{self, Block, Index};
use model::version::{self, V3, V4, Version};

/// A file that has no byte of room in the program's area isn't read.
const MOST: usize = 65_535;

/// The version that a file of this name is read with.
fn version_of(name: &str) -> Version {
    match name.starts_with("v4-") {
        true => V4,
        false => V3,
    }
}

/// The table of the README that a file of this name stands in; each version 4 stands in its own.
fn table(name: &str, of_version_3: &'static str) -> &'static str {
    match version_of(name) {
        V3 => of_version_3,
        V4 => "version 4",
    }
}

/// The folder's files, and what the program is told to replay.
pub struct Folder {
    files: Vec<(String, Vec<u8>)>,
    names: Vec<String>,
    /// rows of the README's tables: the table's name, and the row
    rows: Vec<(&'static str, String)>,
    questions: usize,
}

impl Folder {
    fn put(&mut self, name: String, bytes: Vec<u8>) {
        assert!(bytes.len() <= MOST, "{name} has {} bytes", bytes.len());
        assert!(name.len() < 64 && self.files.iter().all(|file| file.0 != name));
        self.files.push((name, bytes));
    }

    /// A file that is replayed, and its row in a table of the README.
    fn case(&mut self, table: &'static str, name: &str, bytes: &[u8], what: &str, answer: &str) {
        let row = format!("| `{name}` | {} | {what} | {answer} |", bytes.len());
        self.rows.push((table, row));
        self.names.push(name.to_string());
        self.put(name.to_string(), bytes.to_vec());
    }

    /// An index file that is refused.
    fn refused(&mut self, table: &'static str, name: &str, bytes: &[u8], what: &str) {
        let answer = format!("refused {}", opening::open(version_of(name), bytes).no());
        let cell = format!("`{answer}`");
        self.case(table, &format!("{name}.index"), bytes, what, &cell);
        self.put(format!("{name}.expected"), format!("{answer}\n").into());
    }

    /// An index file that opens, with questions.
    fn opens(&mut self, table: &'static str, name: &str, bytes: &[u8], what: &str) {
        let opening = opening::open(version_of(name), bytes);
        assert_eq!(opening.no(), 0, "{name}");
        let index = indexes::rust(bytes, &opening).unwrap();
        let check = check(bytes, &opening);
        let cell = format!("{} blocks, `{check}`", opening.keys.len());
        self.case(table, &format!("{name}.index"), bytes, what, &cell);
        let lines = lines(&index, &opening);
        self.put(format!("{name}.expected"), lines.into());
        let questions = questions(&index, &opening) + &format!("c {check}\n") + &by_version(bytes);
        self.questions += questions.lines().count();
        self.put(format!("{name}.questions"), questions.into());
        self.names.push(format!("{name}.questions"));
    }

    /// How many of the replayed files end so.
    fn count(&self, end: &str) -> usize {
        self.names.iter().filter(|name| name.ends_with(end)).count()
    }

    /// What the program prints if nothing differs.
    fn printed(&self) -> String {
        let mut text = String::new();
        for name in &self.names {
            writeln!(text, "{name} ok").unwrap();
        }
        let (files, automata) = (self.count(".index"), self.count(".automaton"));
        let all = files + self.questions + automata;
        for (front, count) in [
            ("index files: ", files),
            ("questions: ", self.questions),
            ("automata: ", automata),
            ("", all),
        ] {
            writeln!(text, "{front}{count} compared, 0 differ").unwrap();
        }
        text
    }

    fn readme(&self) -> String {
        let mut text = include_str!("readme.md").to_string();
        for table in [
            "smallest",
            "more",
            "good",
            "foreign",
            "one way",
            "version 4",
            "refused tables",
            "tables",
        ] {
            let rows = self.rows.iter().filter(|row| row.0 == table);
            let rows: Vec<&str> = rows.map(|row| row.1.as_str()).collect();
            let place = format!("{{{table}}}");
            assert!(text.contains(&place) && !rows.is_empty());
            text = text.replace(&place, &rows.join("\n"));
        }
        text
    }
}

/// The check's number for a file that opens: whether the Rust's builder writes the same bytes of what is read in it.
fn check(bytes: &[u8], opening: &Opening) -> u64 {
    let keys = opening.keys.iter().map(Vec::as_slice);
    let given: Vec<(Block, &[u8])> = opening.blocks.iter().copied().zip(keys).collect();
    let no = match rust::write_index(opening.version, &given) == bytes {
        true => 0,
        false => NOT_CANONICAL,
    };
    assert_eq!(canonical::number(opening, bytes), no);
    no
}

/// What `blocks` prints: the Rust's blocks, and the separators.
fn lines(index: &Index, opening: &Opening) -> String {
    let mut text = String::new();
    for (id, key) in opening.keys.iter().enumerate() {
        let Block { start, end, ord } = index.get_block(id as u64).unwrap();
        let separator = match key.is_empty() {
            true => "-".to_string(),
            false => hex(key)[1..].to_string(),
        };
        writeln!(text, "{id} {start} {end} {ord} {separator}").unwrap();
    }
    text
}

/// Questions around the blocks' boundaries. The answers are the Rust's, where it has one.
fn questions(index: &Index, opening: &Opening) -> String {
    let n = opening.record.n;
    let chosen = around::ids(opening.version, &mut Numbers::from_seed(1), n, 0);
    let mut text = String::new();
    for id in chosen.iter().copied().chain([n, u64::MAX]) {
        assert_eq!(index.get_block(id), opening.by_id(id));
        match index.get_block(id) {
            Some(Block { start, end, ord }) => writeln!(text, "i {id} 0 {start} {end} {ord}"),
            None => writeln!(text, "i {id} 17 0 0 0"),
        }
        .unwrap();
    }
    text.push_str(&by_terms(index, opening, &chosen));
    for key in around::keys(&opening.keys, &chosen) {
        assert_eq!(index.locate_with_key(&key), opening.by_key(&key));
        match index.locate_with_key(&key) {
            Some(id) => writeln!(text, "k {} 0 {id}", hex(&key)),
            None => writeln!(text, "k {} 19 0", hex(&key)),
        }
        .unwrap();
    }
    text
}

/// Questions with a number of terms: whether the file opens with so many, and which block holds an ordinal then. All ordinals are asked
/// for with three terms more than the last first ordinal, which are the 12 of the worked case.
fn by_terms(index: &Index, opening: &Opening, chosen: &BTreeSet<u64>) -> String {
    let last = opening.last_ord().unwrap();
    let mut text = String::new();
    let mut all = BTreeSet::from(around::terms(last));
    all.insert(last + 3);
    for &terms in &all {
        writeln!(text, "t {terms} {}", opening.number(terms)).unwrap();
    }
    for terms in all.into_iter().filter(|&terms| opening.number(terms) == 0) {
        let mut ords = BTreeSet::from([last, terms - 1, terms, u64::MAX]);
        if terms == last + 3 {
            ords.insert(1_000_000);
            ords.extend(around::ords(&opening.blocks, chosen, terms));
        }
        for ord in ords {
            match opening.by_ord(terms, ord) {
                Ok((id, _)) => {
                    assert_eq!(index.get_and_locate_with_ord(ord).0, id);
                    writeln!(text, "o {terms} {ord} 0 {id}")
                }
                // the Rust panics below the first, and knows of no number of terms
                Err(no) => writeln!(text, "o {terms} {ord} {no} 0"),
            }
            .unwrap();
        }
    }
    text
}

/// Questions whether the file opens with a version and enough terms.
fn by_version(bytes: &[u8]) -> String {
    let mut text = String::new();
    for version in [0, 2, 3, 4, 5, u64::MAX] {
        let no = version::number(version, |version| opening::open(version, bytes).no());
        writeln!(text, "v {version} {no}").unwrap();
    }
    text
}

/// Writes the folder, and beside it the program's arguments and what it prints.
pub fn write(place: &Path) {
    let mut folder = Folder {
        files: Vec::new(),
        names: Vec::new(),
        rows: Vec::new(),
        questions: 0,
    };
    refused::files(&mut folder);
    good::files(&mut folder);
    foreign::files(&mut folder);
    one_way::files(&mut folder);
    version_4::files(&mut folder);
    tables::tables(&mut folder);
    let readme = folder.readme();
    folder.put("README.md".to_string(), readme.into());
    let vectors = place.join("vectors");
    fs::create_dir_all(&vectors).expect("the folder can be made");
    for (name, bytes) in &folder.files {
        fs::write(vectors.join(name), bytes).expect("the folder can be written to");
    }
    let names: String = folder
        .names
        .iter()
        .map(|name| format!("{name}\n"))
        .collect();
    fs::write(place.join("vectors.args"), names).expect("the folder can be written to");
    fs::write(place.join("vectors.stdout"), folder.printed())
        .expect("the folder can be written to");
}
