//! Counts of calls. A call that is made again with the same arguments is counted once.

mod report;

use std::collections::BTreeMap;
use std::process;
use std::sync::Mutex;
use std::time::Instant;

use model::version::{V3, V4, Version};

use crate::asked::Outside;
use crate::calls::{Call, FAMILIES};
use crate::print::{Print, Prints};

/// What an answer was held against.
#[derive(Clone, Copy, PartialEq, Eq)]
pub enum By {
    /// exactly: the Rust, and the model where it has an answer too
    Rust,
    /// exactly: the model alone
    Model,
    /// what document 01 leaves free: a range of answers
    Range,
}

/// One call whose whole result was compared.
pub struct Case {
    call: &'static Call,
    by: By,
    print: Print,
    no: u64,
    right: bool,
    outside: Option<(u64, Outside)>,
}

impl Case {
    /// `no` is the number that the library gave.
    pub fn new(call: &'static Call, by: By, print: Print, no: u64, right: bool) -> Case {
        let outside = None;
        Case {
            call,
            by,
            print,
            no,
            right,
            outside,
        }
    }

    /// The table refuses with this row, and the Rust was asked all the same.
    pub fn outside(mut self, outside: Option<(u64, Outside)>) -> Case {
        self.outside = outside;
        self
    }
}

/// The numbers of all tables are below.
const NUMBERS: usize = 64;

#[derive(Clone)]
struct Count {
    call: &'static Call,
    by: [u64; 3],
    /// calls that were made before
    again: u64,
    /// answers of the stored lists
    stored: u64,
    failed: u64,
    numbers: [u64; NUMBERS],
}

impl Count {
    fn new(call: &'static Call) -> Count {
        let numbers = [0; NUMBERS];
        Count {
            call,
            by: [0; 3],
            again: 0,
            stored: 0,
            failed: 0,
            numbers,
        }
    }

    fn calls(&self) -> u64 {
        self.by.iter().sum()
    }
}

/// The part of the run that is on. Static, for the moment when a call touches what it must not.
static SECTION: Mutex<&str> = Mutex::new("");

/// The version that it is about, if it is about one.
static VERSION: Mutex<&str> = Mutex::new("");

pub fn section() -> String {
    let said = |part: &Mutex<&'static str>| part.lock().map_or("", |said| *said);
    format!("{}{}", said(&SECTION), said(&VERSION))
}

/// The counts so far.
pub struct Tally {
    counts: Vec<Count>,
    prints: Prints,
    /// a call, its row, and what the Rust did: how often
    outside: BTreeMap<(&'static str, u64, Outside), u64>,
    /// kinds of examples, each call once: how often
    kinds: BTreeMap<&'static str, u64>,
    differences: (u64, u64),
    shown: u64,
    began: Option<(Instant, u64, u64)>,
    /// the first failure ends the run
    stops: bool,
}

/// How many failures are written out.
const MOST_SHOWN: u64 = 40;

impl Tally {
    pub fn new(stops: bool) -> Tally {
        let calls = FAMILIES.iter().copied().flatten();
        Tally {
            counts: calls.map(|call| Count::new(call)).collect(),
            prints: Prints::default(),
            outside: BTreeMap::new(),
            kinds: BTreeMap::new(),
            differences: (0, 0),
            shown: 0,
            began: None,
            stops,
        }
    }

    fn count(&mut self, call: &'static Call) -> &mut Count {
        let same = |count: &&mut Count| std::ptr::eq(count.call, call);
        self.counts
            .iter_mut()
            .find(same)
            .expect("a call of a family")
    }

    /// Returns whether the call is new.
    pub fn case(&mut self, case: Case, what: impl FnOnce() -> String) -> bool {
        let Case {
            call,
            by,
            print,
            no,
            right,
            outside,
        } = case;
        let new = self.prints.add(print);
        let count = self.count(call);
        if new {
            count.by[by as usize] += 1;
            count.numbers[(no as usize).min(NUMBERS - 1)] += 1;
        } else {
            count.again += 1;
        }
        if let Some((row, outside)) = outside.filter(|_| new) {
            *self.outside.entry((call.name, row, outside)).or_default() += 1;
        }
        if !right {
            self.count(call).failed += 1;
            self.failure(call.name, what);
        }
        new
    }

    fn failure(&mut self, name: &str, what: impl FnOnce() -> String) {
        self.shown += 1;
        if self.shown <= MOST_SHOWN {
            let text = what();
            let short: String = text.chars().take(2000).collect();
            println!("FAILED {name} in \"{}\": {short}", section());
        }
        if self.stops {
            process::exit(1);
        }
    }

    /// The answer of the last call is held against one of the stored lists.
    pub fn stored(&mut self, call: &'static Call, same: bool, line: &str) {
        let count = self.count(call);
        count.stored += 1;
        if !same {
            count.failed += 1;
            self.failure(call.name, || format!("not the stored answer: {line}"));
        }
    }

    /// The answer of the last call is held to more than the range that it was counted with.
    pub fn held(&mut self, call: &'static Call, right: bool, what: impl FnOnce() -> String) {
        if !right {
            self.count(call).failed += 1;
            self.failure(call.name, what);
        }
    }

    /// The kinds of an example that wasn't asked for before.
    pub fn kinds(&mut self, kinds: &[&'static str]) {
        for kind in kinds {
            *self.kinds.entry(kind).or_default() += 1;
        }
    }

    /// Each of these kinds came up so often.
    pub fn check_kinds(&self, kinds: &[&'static str], least: u64) {
        for kind in kinds {
            let often = self.kinds.get(kind).copied().unwrap_or_default();
            assert!(often >= least, "examples, {kind}: {often}");
        }
    }

    /// A listed difference that was shown, or not.
    pub fn difference(&mut self, right: bool, what: impl FnOnce() -> String) {
        if right {
            self.differences.0 += 1;
        } else {
            self.differences.1 += 1;
            self.failure("difference", what);
        }
    }

    /// Where the Rust was asked though the table refuses: the call, its row, what it did, how often.
    pub fn outside(&self) -> Vec<(&'static str, u64, Outside, u64)> {
        let all = self.outside.iter();
        all.map(|(&(call, row, outside), &often)| (call, row, outside, often))
            .collect()
    }

    fn calls(&self) -> u64 {
        self.counts.iter().map(Count::calls).sum()
    }

    fn again(&self) -> u64 {
        self.counts.iter().map(|count| count.again).sum()
    }

    /// Begins a part of the run, and says how long the last one took.
    pub fn section(&mut self, name: &'static str) {
        self.begin(name, "");
    }

    /// A part of the run in one version.
    pub fn section_of(&mut self, version: Version, name: &'static str) {
        let said = match version {
            V3 => " (version 3)",
            V4 => " (version 4)",
        };
        self.begin(name, said);
    }

    fn begin(&mut self, name: &'static str, version: &'static str) {
        self.end_section();
        *SECTION.lock().expect("one thread") = name;
        *VERSION.lock().expect("one thread") = version;
        self.began = Some((Instant::now(), self.calls(), self.again()));
    }

    pub fn end_section(&mut self) {
        if let Some((began, calls, again)) = self.began.take() {
            let (calls, again) = (self.calls() - calls, self.again() - again);
            let again = if again == 0 {
                String::new()
            } else {
                format!(", {again} again")
            };
            println!(
                "{}: {calls} calls{again}, {:.1} s",
                section(),
                began.elapsed().as_secs_f64()
            );
        }
    }
}
