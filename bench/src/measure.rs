//! Times of several sides, taken in turn.

use std::hint::black_box;
use std::time::{Duration, Instant};

/// How long a run is, and how many runs a side has in one pass. Both are the same for every row.
#[derive(Clone, Copy)]
pub struct Effort {
    pub run: Duration,
    pub rounds: usize,
}

/// Does the work so many times, and gives the time that counts.
pub type Side<'a> = Box<dyn FnMut(u32) -> Duration + 'a>;

/// A side all of whose time counts.
pub fn side<'a, T>(mut work: impl FnMut() -> T + 'a) -> Side<'a> {
    Box::new(move |times| {
        let begin = Instant::now();
        for _ in 0..times {
            black_box(work());
        }
        begin.elapsed()
    })
}

/// A side that makes something, `batch` of them in one piece of work; they are dropped outside the time.
pub fn making<'a, T: 'a>(batch: usize, mut work: impl FnMut() -> T + 'a) -> Side<'a> {
    let mut made = Vec::with_capacity(batch);
    Box::new(move |times| {
        let mut all = Duration::ZERO;
        for _ in 0..times {
            let begin = Instant::now();
            for _ in 0..batch {
                made.push(black_box(work()));
            }
            all += begin.elapsed();
            made.clear();
        }
        all
    })
}

/// What was taken of a side so far: nanoseconds for one unit of work, a number for each run.
#[derive(Clone, Debug)]
pub struct Taken {
    pub name: &'static str,
    /// How often the side works in one run: found out in the first pass.
    repeats: u32,
    runs: Vec<f64>,
}

impl Taken {
    pub fn new(name: &'static str, runs: Vec<f64>) -> Taken {
        Taken {
            name,
            repeats: 0,
            runs,
        }
    }

    pub fn least(&self) -> f64 {
        self.runs.iter().copied().fold(f64::INFINITY, f64::min)
    }

    pub fn median(&self) -> f64 {
        let mut sorted = self.runs.clone();
        sorted.sort_by(f64::total_cmp);
        sorted[sorted.len() / 2]
    }

    pub fn runs(&self) -> usize {
        self.runs.len()
    }

    /// Something that takes long needs no warming: a call of it is a run.
    fn warm_up(&mut self, side: &mut Side, run: Duration) {
        if self.repeats == 0 {
            self.repeats = repeats(side, run);
        } else if self.repeats > 1 {
            side(1);
        }
    }

    fn run(&mut self, side: &mut Side, units: usize) {
        let took = side(self.repeats).as_secs_f64() * 1e9;
        self.runs
            .push(took / f64::from(self.repeats) / units as f64);
    }
}

/// One pass: runs of the sides in turn, every other round backwards. A piece of work has so many units.
pub fn race(taken: &mut [Taken], sides: &mut [Side], units: usize, effort: Effort) {
    for (taken, side) in taken.iter_mut().zip(&mut *sides) {
        taken.warm_up(side, effort.run);
    }
    let last = sides.len() - 1;
    for round in 0..effort.rounds {
        for i in 0..=last {
            let i = if round % 2 == 0 { i } else { last - i };
            taken[i].run(&mut sides[i], units);
        }
    }
}

/// How often the side has to work for a run that is long enough for the clock.
fn repeats(side: &mut Side, run: Duration) -> u32 {
    let mut times = 1;
    loop {
        let took = side(times);
        if took >= run || times >= 1 << 24 {
            return times;
        }
        let more = run.as_secs_f64() / took.as_secs_f64().max(1e-9) * 1.1;
        times = (f64::from(times) * more.clamp(1.5, 100.0)).ceil() as u32;
    }
}
