//! The differences that docs/DIFFERENCES.md lists: the smallest input of each on both sides, and where the cases met them.

mod building;
mod further;
mod met;
mod opening;
mod versions;

use std::collections::BTreeSet;
use std::fs;
use std::path::Path;

use crate::tally::Tally;

/// One difference: what both sides do, and what the list says that they do.
struct Difference {
    id: &'static str,
    input: &'static str,
    rust: [String; 2],
    here: [String; 2],
}

fn difference(
    id: &'static str,
    input: &'static str,
    rust: (String, &str),
    here: (String, &str),
) -> Difference {
    Difference {
        id,
        input,
        rust: [rust.0, rust.1.to_string()],
        here: [here.0, here.1.to_string()],
    }
}

/// Shows each difference, holds the list to them, and the differences that the cases met to the list.
pub fn run(tally: &mut Tally, root: &Path) {
    tally.section("differences");
    let listed = listed(root);
    let mut all: Vec<Difference> = opening::all().into_iter().chain(building::all()).collect();
    all.extend(further::all());
    all.extend(versions::all());
    let shown: BTreeSet<String> = all
        .iter()
        .map(|difference| difference.id.to_string())
        .collect();
    assert_eq!(shown.len(), all.len(), "a mark twice");
    all.into_iter()
        .for_each(|difference| show(tally, difference));
    tally.difference(shown == listed, || {
        format!("listed {listed:?}, shown {shown:?}")
    });
    tally.end_section();
    met::hold(tally, &listed);
}

fn show(tally: &mut Tally, difference: Difference) {
    let Difference {
        id,
        input,
        rust,
        here,
    } = difference;
    println!("  {id} {input}: the Rust {}, here {}", rust[0], here[0]);
    let right = rust[0] == rust[1] && here[0] == here[1];
    tally.difference(right, || {
        format!(
            "{id}: listed is that the Rust {}, here {}",
            rust[1], here[1]
        )
    });
}

/// The marks of the differences in docs/DIFFERENCES.md: table rows whose first cell is D and a number.
fn listed(root: &Path) -> BTreeSet<String> {
    let place = root.join("docs/DIFFERENCES.md");
    let text =
        fs::read_to_string(&place).unwrap_or_else(|why| panic!("{}: {why}", place.display()));
    let marks = text
        .lines()
        .filter_map(|line| line.strip_prefix("| ")?.split(' ').next());
    let is_mark = |mark: &&str| {
        mark.strip_prefix('D')
            .is_some_and(|number| number.parse::<u32>().is_ok())
    };
    marks.filter(is_mark).map(str::to_string).collect()
}
