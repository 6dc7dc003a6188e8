//! docs/BENCHMARKS.md and its plots.

use std::path::Path;
use std::{fs, io};

use crate::calls::{Call, Plots, calls, opening};
use crate::inputs::{Keys, Steps};
use crate::plot::{self, Line, Panel, Scale};
use crate::report::{Report, Row, three, time};
use crate::tables::{by_size, groups, loads, ratio, rows, table_head, table_line, thousands, wrap};
use crate::{machine, memory, words};

/// Writes the document and the plots under the folder `docs`.
pub fn write(report: &Report, memory: &str, archive: Option<&str>, docs: &Path) -> io::Result<()> {
    let plots = docs.join("plots");
    clear(&plots)?;
    let mut text = front(report) + words::WHOSE + &method(report);
    for call in calls() {
        text += &section(report, call, &plots)?;
    }
    text += &memory::section(memory, archive);
    text += words::NOT_REACHED;
    fs::write(docs.join("BENCHMARKS.md"), text)
}

/// An empty folder for plots: calls that are no more leave none there.
fn clear(plots: &Path) -> io::Result<()> {
    fs::create_dir_all(plots)?;
    for file in fs::read_dir(plots)? {
        let file = file?.path();
        if file.extension().is_some_and(|end| end == "svg") {
            fs::remove_file(file)?;
        }
    }
    Ok(())
}

fn front(report: &Report) -> String {
    let (held, over) = report.verdict();
    let mut out = String::from(words::FRONT);
    out += &format!("\nOf {held} ratios that are held to a bar, {over} are over it.\n\n");
    if report.options.quick {
        out += "**A draft: these figures are from a quick run. `bench/run` takes them anew.**\n\n";
    }
    out += "## The bars\n\n";
    let head = [
        "call", "beside", "bar", "rows", "over", "least", "median", "most",
    ];
    out += &table_head(&head.map(str::to_string));
    for group in groups(report) {
        let told = |row: &Row| format!("{} ({}, n = {})", ratio(row), row.load, thousands(row.n));
        out += &table_line(&[
            group.name.to_string(),
            group.call.whose.name().to_string(),
            group.bar(),
            group.rows.len().to_string(),
            group.over(),
            told(group.least()),
            ratio(group.median()),
            told(group.most()),
        ]);
    }
    out + &linear(report)
}

/// The exponent of the time in the number of bytes, by least squares.
fn exponent(points: &[(f64, f64)]) -> f64 {
    let logs: Vec<(f64, f64)> = points.iter().map(|(x, y)| (x.ln(), y.ln())).collect();
    let count = logs.len() as f64;
    let mean = |part: fn(&(f64, f64)) -> f64| logs.iter().map(part).sum::<f64>() / count;
    let (x, y) = (mean(|point| point.0), mean(|point| point.1));
    let both: f64 = logs.iter().map(|point| (point.0 - x) * (point.1 - y)).sum();
    let square: f64 = logs.iter().map(|point| (point.0 - x) * (point.0 - x)).sum();
    both / square
}

/// Whether opening takes time in proportion to the bytes.
fn linear(report: &Report) -> String {
    let opened = rows(report, opening::PASS.what);
    let mut out = String::from(
        "\nOpening has to be at least half as fast as the plain pass for long keys, which is a ratio of at most 2, and linear. Time as a\n\
         power of the file's bytes, from n = 128 to 65,536 (1 is linear; above that the caches end):\n\n",
    );
    out += &table_head(&["keys", "ours", "plain pass"].map(str::to_string));
    for load in loads(&opened) {
        let power = |side: usize| {
            let points: Vec<(f64, f64)> = opened
                .iter()
                .filter(|row| row.load == load && row.n >= 128)
                .map(|row| (row.bytes.unwrap_or(1) as f64, row.sides[side].least()))
                .collect();
            format!("{:.2}", exponent(&points))
        };
        out += &table_line(&[load.to_string(), power(0), power(1)]);
    }
    out
}

fn method(report: &Report) -> String {
    let mut out = String::from("\n## The machine\n\n");
    out += &table_head(&["", ""].map(str::to_string));
    for (name, value) in machine::lines() {
        out += &table_line(&[name.to_string(), value]);
    }
    out.push('\n');
    out += words::METHOD;
    out += &runs(report);
    out += "\n## The keys\n\n";
    out += &table_head(&["name", "how they were made"].map(str::to_string));
    for kind in Keys::ALL {
        out += &table_line(&[kind.name().to_string(), kind.story().to_string()]);
    }
    out += "\nSeparators are these keys as they are; none is shortened. All numbers come from fixed seeds.\n\n";
    out += "## The lists of blocks\n\n";
    out += &table_head(&["name", "blocks"].map(str::to_string));
    for steps in Steps::ALL {
        out += &table_line(&[steps.name().to_string(), steps.story().to_string()]);
    }
    out += "\nWhere nothing else is said the steps are random.\n";
    out + words::PATTERNS
}

/// How long and how often.
fn runs(report: &Report) -> String {
    let effort = report.effort();
    let said = format!(
        "- A run repeats a call until {} µs are over; a call that takes longer is a run. All rows are gone through {} times, with \
         inputs made anew, and each time a side of a row has {} runs, {} in all: as many for every row. Runs of the sides alternate, \
         every other round backwards. Ratios and times are those of the least run of each side; the driver's own table has the ratio \
         of the medians too. Inputs and answers go through `black_box`. All of it took {} s, without building.",
        effort.run.as_micros(),
        report.passes(),
        effort.rounds,
        report.passes() * effort.rounds,
        report.seconds(),
    );
    wrap(&said, "  ") + "\n"
}

fn section(report: &Report, call: &Call, plots: &Path) -> io::Result<String> {
    let rows = rows(report, call.what);
    let Some(first) = rows.first() else {
        return Ok(String::new());
    };
    let mut out = format!("## {}\n\n{}\n\n", capital(call.what), about(call));
    if first.ratio().is_some() {
        out += "Ratio:\n\n";
        out += &by_size(&rows, ratio);
    }
    let unit = match call.scale {
        Scale::Speed => "GB/s",
        Scale::Time => "Time of a call",
    };
    for (i, side) in first.sides.iter().enumerate() {
        out += &format!("{unit}, {}:\n\n", side.name);
        out += &by_size(&rows, |row| match call.scale {
            Scale::Speed => three(point(row, i, call.scale)),
            Scale::Time => time(point(row, i, call.scale)),
        });
    }
    for (file, title, panels) in pictures(&rows, call) {
        fs::write(plots.join(&file), plot::svg(&title, call.scale, &panels))?;
        out += &format!("![{title}](plots/{file})\n\n");
    }
    Ok(out)
}

/// What is timed, and what the ratio says.
fn about(call: &Call) -> String {
    let said = if call.with.is_empty() {
        format!("Ours: {}. {}", call.ours, call.says)
    } else {
        format!(
            "Ours: {}. Beside it: {}. {}",
            call.ours, call.with, call.says
        )
    };
    wrap(&said, "")
}

fn capital(what: &str) -> String {
    what[..1].to_uppercase() + &what[1..]
}

fn point(row: &Row, side: usize, scale: Scale) -> f64 {
    let least = row.sides[side].least();
    match (scale, row.bytes) {
        (Scale::Speed, Some(bytes)) => bytes as f64 / least,
        _ => least,
    }
}

/// A call's plots: file, title, panels.
fn pictures(rows: &[&Row], call: &Call) -> Vec<(String, String, Vec<Panel>)> {
    let file = call
        .what
        .to_lowercase()
        .replace("::", "-")
        .replace(", ", "-")
        .replace(' ', "-");
    let title = match call.scale {
        Scale::Speed => format!("{}: bytes a second", capital(call.what)),
        Scale::Time => format!("{}: time of a call", capital(call.what)),
    };
    match call.plots {
        Plots::None => Vec::new(),
        Plots::One => vec![(format!("{file}.svg"), title, panels(rows, call.scale, ""))],
        Plots::Lines => vec![(format!("{file}.svg"), title, of_kinds(rows, call.scale))],
        Plots::ByKeys => Keys::ALL
            .iter()
            .map(|kind| {
                let (front, of_kind) = of_kind(rows, *kind);
                (
                    format!("{file}-{}.svg", kind.name()),
                    format!("{title}, keys {}", kind.name()),
                    panels(&of_kind, call.scale, &front),
                )
            })
            .filter(|(_, _, panels)| !panels.is_empty())
            .collect(),
    }
}

/// The rows with keys of a kind, and how the names of their workloads begin.
fn of_kind<'a>(rows: &[&'a Row], kind: Keys) -> (String, Vec<&'a Row>) {
    let front = format!("{}, ", kind.name());
    let mut of_kind = rows.to_vec();
    of_kind.retain(|row| row.load.starts_with(&front));
    (front, of_kind)
}

/// A panel for each workload, with a line for each side.
fn panels(rows: &[&Row], scale: Scale, front: &str) -> Vec<Panel> {
    loads(rows)
        .into_iter()
        .map(|load| {
            let mut of_load = rows.to_vec();
            of_load.retain(|row| row.load == load);
            let side = |side: usize| Line {
                name: of_load[0].sides[side].name.to_string(),
                points: points(&of_load, side, scale),
            };
            Panel {
                title: load.strip_prefix(front).unwrap_or(load).to_string(),
                lines: (0..of_load[0].sides.len()).map(side).collect(),
            }
        })
        .collect()
}

/// A panel for each kind of keys, with a line for each pattern.
fn of_kinds(rows: &[&Row], scale: Scale) -> Vec<Panel> {
    Keys::ALL
        .iter()
        .map(|kind| {
            let (front, of_kind) = of_kind(rows, *kind);
            let line = |load: &str| {
                let mut of_load = of_kind.clone();
                of_load.retain(|row| row.load == load);
                Line {
                    name: load[front.len()..].to_string(),
                    points: points(&of_load, 0, scale),
                }
            };
            Panel {
                title: kind.name().to_string(),
                lines: loads(&of_kind).into_iter().map(line).collect(),
            }
        })
        .filter(|panel| !panel.lines.is_empty())
        .collect()
}

fn points(rows: &[&Row], side: usize, scale: Scale) -> Vec<(f64, f64)> {
    rows.iter()
        .map(|row| (row.n as f64, point(row, side, scale)))
        .collect()
}
