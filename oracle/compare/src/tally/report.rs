//! What the counts say at the end.

use super::{Count, Tally};

impl Tally {
    /// Every number that a call can answer must have come up. Only a whole run is held to it.
    pub fn check_numbers(&mut self) {
        for at in 0..self.counts.len() {
            let Count { call, numbers, .. } = &self.counts[at];
            let call = *call;
            let unseen: Vec<u64> = call
                .numbers
                .iter()
                .copied()
                .filter(|&no| numbers[no as usize] == 0)
                .collect();
            if !unseen.is_empty() {
                self.counts[at].failed += 1;
                self.failure(call.name, || format!("numbers never answered: {unseen:?}"));
            }
        }
    }

    /// Prints the counts. Returns how many passed and how many failed.
    pub fn print(&mut self) -> (u64, u64) {
        self.end_section();
        println!();
        self.print_calls();
        self.print_numbers();
        self.print_kinds();
        let (shown, missed) = self.differences;
        let failed = self.counts.iter().map(|count| count.failed).sum::<u64>() + missed;
        (
            (self.calls() + shown + missed).saturating_sub(failed),
            failed,
        )
    }

    fn print_calls(&self) {
        println!(
            "{:<19}{:>10}{:>11}{:>12}{:>10}{:>10}{:>8}{:>8}",
            "call", "calls", "= the Rust", "= the model", "in range", "again", "stored", "failed"
        );
        let mut sums = [0; 7];
        for count in &self.counts {
            let [rust, model, range] = count.by;
            let row = [
                count.calls(),
                rust,
                model,
                range,
                count.again,
                count.stored,
                count.failed,
            ];
            print_row(count.call.name, row);
            sums.iter_mut()
                .zip(row)
                .for_each(|(sum, number)| *sum += number);
        }
        print_row("all", sums);
        let [calls, rust, model, range, again, stored, _] = sums;
        println!(
            "{calls} calls, each counted once; {again} more were made again with the same arguments"
        );
        println!(
            "exact: {} ({rust} equal the Rust, {model} the model alone)",
            rust + model
        );
        println!("held to a range, where document 01 leaves the answer free: {range}");
        println!("stored answers that calls were held against too: {stored}");
        let (shown, missed) = self.differences;
        println!(
            "checks of docs/DIFFERENCES.md: {}, of which failed: {missed}",
            shown + missed
        );
    }

    fn print_numbers(&self) {
        println!("answers by number:");
        for count in &self.counts {
            let numbers = count
                .numbers
                .iter()
                .enumerate()
                .filter(|(_, seen)| **seen > 0);
            let seen: Vec<String> = numbers.map(|(no, seen)| format!("{no}: {seen}")).collect();
            println!("  {}: {}", count.call.name, seen.join(", "));
        }
    }

    fn print_kinds(&self) {
        println!("examples by kind, one of several kinds often:");
        for (kind, often) in &self.kinds {
            println!("  {kind}: {often}");
        }
    }
}

fn print_row(name: &str, row: [u64; 7]) {
    let [calls, rust, model, range, again, stored, failed] = row;
    println!(
        "{name:<19}{calls:>10}{rust:>11}{model:>12}{range:>10}{again:>10}{stored:>8}{failed:>8}"
    );
}
