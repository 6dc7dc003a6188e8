//! The document of rows whose times are given.

use std::path::PathBuf;
use std::{env, fs, process};

use rosmarel_bench::document;
use rosmarel_bench::measure::Taken;
use rosmarel_bench::readme;
use rosmarel_bench::report::{Options, Report, Row};

fn row(mut row: Row, ours: f64, other: f64) -> Row {
    let taken = |name, least| Taken::new(name, vec![3.0 * least, least, 2.0 * least]);
    row.sides = vec![taken("ours", ours), taken("Rust", other)];
    row
}

fn report(quick: bool) -> Report {
    let mut report = Report::new(Options {
        quick,
        repeat: 1,
        out: None,
        words: Vec::new(),
    });
    let by_id = |n| Row::new("get by id", "short", n).held(1.0);
    report.rows.push(row(by_id(2), 3.0, 2.0));
    report.rows.push(row(by_id(65_536), 2.0, 2.0));
    // 1,000 times the bytes take 1,000 times as long here, and 10^4.5 times there
    for (n, ours, pass) in [(128, 10.0, 10.0), (65_536, 1e4, 3.162_277_66e5)] {
        let opened = Row::new("opening", "long-shared", n).held(2.0);
        let bytes = if n == 128 { 1_000 } else { 1_000_000 };
        report.rows.push(row(opened.sized(bytes), ours, pass));
    }
    let listing = Row::new("listing, marks", "short, all (1)", 1_000).held(0.5);
    report.rows.push(row(listing, 1.0, 100.0));
    let far =
        Row::new("listing, marks", "long-early, follows (3)", 2).grouped("listing, marks, far");
    report.rows.push(row(far.held(0.1), 1.0, 4.0));
    let add = Row::new("add", "short", 2);
    report.rows.push(row(add, 7.0, 2.0));
    let load = Row::new("opening beside load", "short", 2).unequal();
    report.rows.push(row(load, 70_000.0, 7.0));
    report
}

const MEMORY: &str =
    "one\t2\t1600000\t3\t400\ntwo\t2\t56\t-\t-\none\t1000\t1600000\t0\t0\ntwo\t1000\t64\t-\t-\n";

/// The document and a plot of it. What was there before goes, if it is a plot.
fn written(name: &str, quick: bool) -> (String, String) {
    let folder: PathBuf = env::temp_dir().join(format!("rosmarel-{name}-{}", process::id()));
    let plots = folder.join("plots");
    fs::create_dir_all(&plots).unwrap();
    fs::write(plots.join("old.svg"), "").unwrap();
    document::write(&report(quick), MEMORY, None, &folder).unwrap();
    let text = fs::read_to_string(folder.join("BENCHMARKS.md")).unwrap();
    let plot = fs::read_to_string(plots.join("get-by-id.svg")).unwrap();
    assert!(!plots.join("old.svg").exists());
    fs::remove_dir_all(&folder).unwrap();
    (text, plot)
}

#[test]
fn ratios_over_a_bar_are_bold_and_counted() {
    let (text, _) = written("ratios", false);
    assert!(text.contains("Of 6 ratios that are held to a bar, 2 are over it"));
    assert!(text.contains(
        "| workload | n = 2 | n = 65,536 |\n|---|---|---|\n| short | **1.50** | 1.00 |\n"
    ));
    let summary = "| get by id | tantivy + stand-ins | 1 | 2 | 1 | 1.00 (short, n = 65,536) | **1.50** | **1.50** (short, n = 2) |\n";
    assert!(text.contains(summary));
    assert!(text.contains("| short, all (1) |  | 0.010 |\n"));
}

#[test]
fn unequal_work_has_times_and_no_ratio() {
    let (text, _) = written("unequal", false);
    let (_, section) = text.split_once("## Opening beside load\n").unwrap();
    let (section, _) = section.split_once("\n## ").unwrap();
    assert!(section.contains("| short | 70.0 µs |\n") && section.contains("| short | 7.00 ns |\n"));
    assert!(!section.contains("Ratio"));
}

#[test]
fn exponents_and_speeds_of_opening() {
    let (text, _) = written("opening", false);
    assert!(text.contains("| long-shared | 1.00 | 1.50 |\n"));
    assert!(text.contains("| long-shared | 100 | 100 |\n"));
    assert!(text.contains("| long-shared | 100 | 3.16 |\n"));
}

#[test]
fn memory() {
    let (text, _) = written("memory", false);
    assert!(text.contains("Its deepest stack is that of `one`, 1,600,000 bytes."));
    assert!(text.contains("| `one` | 1,600,000 | 1,600,000 | 400 in 3 | nothing |\n"));
    assert!(text.contains("| `two` | 56 | 64 |  |  |\n"));
}

#[test]
fn a_quick_run_says_that_it_is_a_draft() {
    let (draft, whole) = (written("draft", true).0, written("whole", false).0);
    assert!(draft.contains("A draft") && !whole.contains("A draft"));
}

#[test]
fn a_plot_has_each_point() {
    let (_, plot) = written("plot", false);
    assert_eq!(plot.matches("<circle").count(), 4);
    assert_eq!(plot.matches("<polyline").count(), 2);
    assert!(plot.starts_with("<svg ") && plot.ends_with("</svg>\n"));
}

#[test]
fn only_tables_have_long_lines() {
    let (text, _) = written("lines", false);
    let long = text
        .lines()
        .find(|line| !line.starts_with('|') && line.chars().count() > 140);
    assert_eq!(long, None);
}

#[test]
fn the_table_of_the_readme() {
    let table = readme::table(&report(false));
    assert!(table.contains(
        "| get by id | tantivy + stand-ins | 2 | 1.00 | **1.50** | **1.50** | 1 | 1 |\n"
    ));
    assert!(table.contains(
        "| listing, marks | tantivy + stand-ins | 1 | 0.010 | 0.010 | 0.010 | 0.5 | 0 |\n"
    ));
    assert!(table.contains("| listing, marks, far | tantivy + stand-ins | 1 | **0.25** | **0.25** | **0.25** | 0.1 | 1 |\n"));
    assert!(table.contains("| add | tantivy | 1 | 3.50 | 3.50 | 3.50 | none |  |\n"));
    assert!(!table.contains("load"));
    let text = format!("one\n{}\nold\n{}\ntwo\n", readme::BEGIN, readme::END);
    let new = format!("one\n{}\n{table}{}\ntwo\n", readme::BEGIN, readme::END);
    assert_eq!(readme::splice(&text, &table), Some(new.clone()));
    assert_eq!(readme::splice(&new, &table), Some(new));
    assert_eq!(readme::splice("one\ntwo\n", &table), None);
}

#[test]
fn the_table_is_written_between_the_marks() {
    let file = env::temp_dir().join(format!("rosmarel-readme-{}.md", process::id()));
    fs::write(
        &file,
        format!("a\n{}\nold\n{}\nb\n", readme::BEGIN, readme::END),
    )
    .unwrap();
    readme::write(&report(false), &file).unwrap();
    let text = fs::read_to_string(&file).unwrap();
    fs::write(&file, "a\nb\n").unwrap();
    assert!(readme::write(&report(false), &file).is_err());
    fs::remove_file(&file).unwrap();
    assert!(text.starts_with("a\n<!--") && text.ends_with("-->\nb\n"));
    assert!(text.contains("| get by id |") && !text.contains("old"));
}

#[test]
fn the_repository_has_a_place_for_the_table() {
    let readme = fs::read_to_string(concat!(env!("CARGO_MANIFEST_DIR"), "/../README.md")).unwrap();
    assert!(readme::splice(&readme, "").is_some());
}
