//! The rows that were measured, and the table of them.

use std::path::PathBuf;
use std::time::{Duration, Instant};

use crate::inputs::Keys;
use crate::measure::{Effort, Side, Taken, race};

/// How often all rows are gone through, and the runs of a side each time.
const PASSES: usize = 4;
const ROUNDS: usize = 8;

/// Sizes that are looked at in quick runs, unless one is named.
const QUICK_SIZES: [usize; 3] = [2, 1_000, 65_536];

pub struct Options {
    pub quick: bool,
    /// Multiplies the passes.
    pub repeat: usize,
    /// Where the document goes, if not to `docs` and the README.
    pub out: Option<PathBuf>,
    /// Words that a row's name has to have.
    pub words: Vec<String>,
}

#[derive(Clone, Debug)]
pub struct Row {
    /// The call, as `get by id`
    pub what: &'static str,
    /// Rows of a call that are summed up together, as `opening, short keys`
    pub group: &'static str,
    /// The kind of keys, and for listings the pattern
    pub load: String,
    pub n: usize,
    /// What the ratio may be at most, if it is held.
    pub bar: Option<f64>,
    /// Bytes in a unit of work, where speed is told in bytes a second.
    pub bytes: Option<usize>,
    /// The sides don't do the same, so that there is no ratio.
    pub unequal: bool,
    pub note: String,
    /// The first side is ours, the second the one that the ratio is taken with.
    pub sides: Vec<Taken>,
}

impl Row {
    pub fn new(what: &'static str, load: &str, n: usize) -> Row {
        Row {
            what,
            group: what,
            load: load.to_string(),
            n,
            bar: None,
            bytes: None,
            unequal: false,
            note: String::new(),
            sides: Vec::new(),
        }
    }

    pub fn grouped(mut self, group: &'static str) -> Row {
        self.group = group;
        self
    }

    pub fn held(mut self, bar: f64) -> Row {
        self.bar = Some(bar);
        self
    }

    pub fn sized(mut self, bytes: usize) -> Row {
        self.bytes = Some(bytes);
        self
    }

    pub fn unequal(mut self) -> Row {
        self.unequal = true;
        self
    }

    /// Ours by the second side, the least of the runs on both.
    pub fn ratio(&self) -> Option<f64> {
        self.ratio_of(Taken::least)
    }

    pub fn median_ratio(&self) -> Option<f64> {
        self.ratio_of(Taken::median)
    }

    fn ratio_of(&self, time: fn(&Taken) -> f64) -> Option<f64> {
        let other = self.sides.get(1).filter(|_| !self.unequal)?;
        Some(time(&self.sides[0]) / time(other))
    }

    pub fn over(&self) -> bool {
        match (self.bar, self.ratio()) {
            (Some(bar), Some(ratio)) => ratio > bar,
            _ => false,
        }
    }

    fn is(&self, other: &Row) -> bool {
        (self.what, &self.load, self.n) == (other.what, &other.load, other.n)
    }
}

pub struct Report {
    pub rows: Vec<Row>,
    pub options: Options,
    pass: usize,
    begin: Instant,
}

impl Report {
    pub fn new(options: Options) -> Report {
        Report {
            rows: Vec::new(),
            options,
            pass: 0,
            begin: Instant::now(),
        }
    }

    pub fn passes(&self) -> usize {
        let passes = if self.options.quick { 1 } else { PASSES };
        passes * self.options.repeat
    }

    /// Goes through all rows, as often as is asked for.
    pub fn go(&mut self, mut once: impl FnMut(&mut Report)) {
        for pass in 0..self.passes() {
            self.pass = pass;
            once(self);
            eprintln!(
                "pass {} of {}, {} s",
                pass + 1,
                self.passes(),
                self.seconds()
            );
        }
    }

    /// Answers are compared, and bars looked up, once.
    pub fn first_pass(&self) -> bool {
        self.pass == 0
    }

    pub fn seconds(&self) -> u64 {
        self.begin.elapsed().as_secs()
    }

    /// Whether a row was asked for.
    pub fn wants(&self, row: &Row) -> bool {
        let name = format!("{} {}", row.what, row.load);
        let words = &self.options.words;
        let mut names = words.iter().filter(|word| size(word).is_none());
        self.wants_size(row.n) && names.all(|word| name.contains(word.as_str()))
    }

    fn wants_size(&self, n: usize) -> bool {
        if self.names_a_size() {
            self.options.words.iter().any(|word| size(word) == Some(n))
        } else {
            !self.options.quick || QUICK_SIZES.contains(&n)
        }
    }

    pub fn names_a_size(&self) -> bool {
        self.options.words.iter().any(|word| size(word).is_some())
    }

    /// Whether keys of a kind may be asked for: inputs aren't made in vain.
    pub fn wants_keys(&self, kind: Keys, n: usize) -> bool {
        let of_kind = |word: &&String| {
            Keys::ALL
                .iter()
                .any(|kind| kind.name().contains(word.as_str()))
        };
        let mut named = self.options.words.iter().filter(of_kind);
        self.wants_size(n) && named.all(|word| kind.name().contains(word.as_str()))
    }

    pub fn effort(&self) -> Effort {
        let (run, rounds) = if self.options.quick {
            (150, 5)
        } else {
            (500, ROUNDS)
        };
        Effort {
            run: Duration::from_micros(run),
            rounds,
        }
    }

    /// Measures a row's sides once more.
    pub fn measure(&mut self, row: Row, sides: Vec<(&'static str, Side)>, units: usize) {
        let place = self.rows.iter().position(|one| one.is(&row));
        let place = place.unwrap_or(self.rows.len());
        if place == self.rows.len() {
            self.rows.push(row);
        }
        let effort = self.effort();
        let row = &mut self.rows[place];
        if row.sides.is_empty() {
            let names = sides.iter().map(|(name, _)| *name);
            row.sides = names.map(|name| Taken::new(name, Vec::new())).collect();
        }
        let mut sides: Vec<Side> = sides.into_iter().map(|(_, side)| side).collect();
        race(&mut row.sides, &mut sides, units, effort);
        if self.pass + 1 == self.passes() {
            println!("{}", line(&self.rows[place]));
        }
    }

    /// How many rows are held to a bar, and how many of them are over it.
    pub fn verdict(&self) -> (usize, usize) {
        let held = self.rows.iter().filter(|row| row.bar.is_some()).count();
        let over = self.rows.iter().filter(|row| row.over()).count();
        (held, over)
    }
}

/// The number of a word such as `n=1000`.
fn size(word: &str) -> Option<usize> {
    word.strip_prefix("n=")?.parse().ok()
}

/// Three digits.
pub fn three(value: f64) -> String {
    match value {
        _ if value < 0.0995 => format!("{value:.3}"),
        _ if value < 9.995 => format!("{value:.2}"),
        _ if value < 99.95 => format!("{value:.1}"),
        _ => format!("{value:.0}"),
    }
}

/// A time with its unit.
pub fn time(ns: f64) -> String {
    match ns {
        _ if ns < 999.5 => format!("{} ns", three(ns)),
        _ if ns < 999.5e3 => format!("{} µs", three(ns / 1e3)),
        _ => format!("{} ms", three(ns / 1e6)),
    }
}

pub fn head() -> String {
    format!(
        "{:<29} {:<34} {:>6} {:>6} {:>7} {:>5}      times (least of the runs)",
        "call", "workload", "n", "ratio", "medians", "bar"
    )
}

fn line(row: &Row) -> String {
    let told = |ratio: Option<f64>| ratio.map_or(String::new(), three);
    let bar = row.bar.map_or(String::new(), |bar| format!("{bar}"));
    let verdict = match row.bar {
        Some(_) if row.over() => "OVER",
        Some(_) => "ok",
        None => "",
    };
    let mut line = format!(
        "{:<29} {:<34} {:>6} {:>6} {:>7} {bar:>5} {verdict:<4}",
        row.what,
        row.load,
        row.n,
        told(row.ratio()),
        told(row.median_ratio()),
    );
    for side in &row.sides {
        line += &format!("  {} {}", side.name, time(side.least()));
        if let Some(bytes) = row.bytes {
            line += &format!(" ({:.2} GB/s)", bytes as f64 / side.least());
        }
    }
    if !row.note.is_empty() {
        line += &format!("  {}", row.note);
    }
    line
}
