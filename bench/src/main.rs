//! The driver: times of all rows, the table of ratios, and the document.

use std::env;
use std::error::Error;
use std::path::Path;
use std::process::{Command, ExitCode};

use rosmarel_bench::calls::{FAMILIES, Measure};
use rosmarel_bench::inputs::{Input, Keys};
use rosmarel_bench::report::{Options, Report, head};
use rosmarel_bench::{document, readme};
use tantivy_sstable::{Rust, V3, V4};

const SIZES: [usize; 8] = [2, 16, 128, 129, 1_000, 4_096, 16_384, 65_536];

/// Those of version 4: its own full group, and a block more.
const SIZES_V4: [usize; 8] = [2, 16, 256, 257, 1_000, 4_096, 16_384, 65_536];

const USAGE: &str = "\
bench/run [--repeat K]                      all rows; writes docs/BENCHMARKS.md, docs/plots and the table in README.md
bench/run --quick [--repeat K] [WORD...]    rows whose name has each word (as `listing`, `long-shared`, n=1000); writes nothing
bench/run --build-only                      builds the archive and the driver
--repeat K goes through all rows K times as often; --out DIR writes document, plots and table there, with --quick too";

fn options() -> Option<Options> {
    let mut options = Options {
        quick: false,
        repeat: 1,
        out: None,
        words: Vec::new(),
    };
    let mut words = env::args().skip(1);
    while let Some(word) = words.next() {
        match word.as_str() {
            "--quick" => options.quick = true,
            "--out" => options.out = Some(words.next()?.into()),
            "--repeat" => options.repeat = words.next()?.parse().ok().filter(|&times| times > 0)?,
            _ if word.starts_with("--") => return None,
            _ => options.words.push(word),
        }
    }
    // the document has all rows
    (options.quick || options.words.is_empty()).then_some(options)
}

/// All rows once.
fn pass(report: &mut Report) {
    let v3: Vec<Measure> = FAMILIES.iter().map(|family| family.measure).collect();
    let v4 = FAMILIES.iter().filter_map(|family| family.measure_v4);
    let v4: Vec<Measure> = v4.collect();
    for kind in Keys::ALL {
        in_version::<V3>(report, kind, SIZES, &v3);
        in_version::<V4>(report, kind, SIZES_V4, &v4);
    }
}

fn in_version<R: Rust>(report: &mut Report, kind: Keys, sizes: [usize; 8], all: &[Measure]) {
    for n in sizes {
        if report.wants_keys(kind, n) {
            let input = Input::new::<R>(kind, n);
            for measure in all {
                measure(report, &input);
            }
        }
    }
}

/// What the program `memory` beside this one says.
fn memory() -> Result<String, Box<dyn Error>> {
    let program = env::current_exe()?.with_file_name("memory");
    let ran = Command::new(program).output()?;
    if !ran.status.success() {
        return Err(String::from_utf8_lossy(&ran.stderr).into());
    }
    Ok(String::from_utf8(ran.stdout)?)
}

fn write(report: &Report, docs: &Path) -> Result<(), Box<dyn Error>> {
    let archive = env::var("ROSMAREL_LIB_DIR").map(|folder| folder + "/librosmarel.a");
    document::write(report, &memory()?, archive.ok().as_deref(), docs)?;
    Ok(())
}

fn run(options: Options) -> Result<(), Box<dyn Error>> {
    let root = Path::new(env!("CARGO_MANIFEST_DIR")).join("..");
    let (out, quick) = (options.out.clone(), options.quick);
    println!("{}", head());
    let mut report = Report::new(options);
    report.go(pass);
    let (held, over) = report.verdict();
    println!("{held} ratios held to a bar, {over} over it");
    match out {
        Some(out) => {
            write(&report, &out)?;
            std::fs::write(out.join("README-table.md"), readme::table(&report))?;
        }
        None if !quick => {
            write(&report, &root.join("docs"))?;
            readme::write(&report, &root.join("README.md"))?;
        }
        None => (),
    }
    Ok(())
}

fn main() -> ExitCode {
    let Some(options) = options() else {
        eprintln!("{USAGE}");
        return ExitCode::from(2);
    };
    match run(options) {
        Ok(()) => ExitCode::SUCCESS,
        Err(why) => {
            eprintln!("bench: {why}");
            ExitCode::FAILURE
        }
    }
}
