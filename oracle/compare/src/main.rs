//! Compares the exported functions of librosmarel.a with the Rust and with plain models of documents 01 and 02.
//!
//! compare ROOT [--begin] [--stop] [TOPIC..]: the repository's folder; lent parts begin at a protected page and don't end at one;
//! the first failure ends the run; some topics alone.

mod asked;
mod calls;
mod cases;
mod differences;
mod memory;
mod print;
mod stored;
mod tally;

use std::env;
use std::path::Path;
use std::process::ExitCode;

use memory::{lent, touched};
use tally::Tally;

fn main() -> ExitCode {
    asked::keep_quiet();
    touched::watch();
    let mut words: Vec<String> = env::args().skip(1).collect();
    let root = words.remove(0);
    let mut option = |name: &str| {
        let before = words.len();
        words.retain(|word| word != name);
        words.len() < before
    };
    let (begin, stop) = (option("--begin"), option("--stop"));
    if begin {
        lent::begin_at_a_page();
    }
    let mut tally = Tally::new(stop);
    println!("{}", about(begin));
    if !interface_fits() {
        println!("0 passed, 1 failed");
        return ExitCode::FAILURE;
    }
    run(&mut tally, Path::new(&root), &words);
    let (passed, failed) = tally.print();
    println!("{passed} passed, {failed} failed");
    if failed == 0 {
        ExitCode::SUCCESS
    } else {
        ExitCode::FAILURE
    }
}

/// Calls of another interface take other numbers, so none is made.
fn interface_fits() -> bool {
    let (interface, due) = (calls::interface(), calls::INTERFACE);
    if interface != due {
        println!("FAILED interface {interface}: the declarations are of {due}");
    }
    interface == due
}

/// Which archive, which Rust, and where parts are lent.
fn about(begin: bool) -> String {
    let archive = env!("ROSMAREL_ARCHIVE");
    let checks = if asked::overflow_checks() {
        "with"
    } else {
        "without"
    };
    let place = if begin { "begin after" } else { "end before" };
    format!(
        "archive {archive}\nthe Rust {checks} overflow checks; lent parts {place} a page that can't be touched"
    )
}

/// All topics, or those that are named.
fn run(tally: &mut Tally, root: &Path, topics: &[String]) {
    let named = |name: &str| topics.is_empty() || topics.iter().any(|topic| topic == name);
    for (name, run) in cases::TOPICS {
        if named(name) {
            run(tally);
        }
    }
    if named("stored") {
        stored::run(tally, root);
    }
    if named("differences") {
        differences::run(tally, root);
    }
    if topics.is_empty() {
        tally.check_numbers();
    }
}
