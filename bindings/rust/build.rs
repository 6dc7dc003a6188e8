//! Finds `librosmarel.a`, or has it proved and built, and refuses one with another interface than this crate's.

use std::env;
use std::fs;
use std::path::{Path, PathBuf};
use std::process::{Command, ExitCode};
use std::time::SystemTime;

#[path = "src/interface.rs"]
mod interface;

use interface::INTERFACE;

const ARCHIVE: &str = "librosmarel.a";

/// The folder, seen from the repository, in which `rt` proves and builds the archive; it stands in `out` there.
const FOLDER: &str = "crates/rosmarel";

/// The archive is for every x86-64; where no processor is named, `rt` makes code for newer ones alone.
const WORDS: [&str; 3] = ["lib", "--cpu", "x86-64"];

/// What the archive's number is asked with.
const PROBE: &str = "
unsafe extern \"C\" {
    fn rosmarel_interface() -> u64;
}

fn main() {
    println!(\"{}\", unsafe { rosmarel_interface() });
}
";

fn main() -> ExitCode {
    let found = archive_dir().and_then(|dir| {
        same_interface(&dir)?;
        Ok(dir)
    });
    match found {
        Ok(dir) => {
            println!("cargo::rustc-link-search=native={}", dir.display());
            println!("cargo::rustc-link-lib=static=rosmarel");
            ExitCode::SUCCESS
        }
        Err(why) => {
            for line in why.lines() {
                println!("cargo::error={line}");
            }
            ExitCode::FAILURE
        }
    }
}

/// The folder that has the archive.
fn archive_dir() -> Result<PathBuf, String> {
    watch(Path::new("build.rs"));
    watch(Path::new("src/interface.rs"));
    println!("cargo::rerun-if-env-changed=ROSMAREL_LIB_DIR");
    let of_target = |name| env::var(name).unwrap_or_default();
    let arch = of_target("CARGO_CFG_TARGET_ARCH");
    let os = of_target("CARGO_CFG_TARGET_OS");
    if (arch.as_str(), os.as_str()) != ("x86_64", "linux") {
        return Err(format!(
            "{ARCHIVE} links into programs for x86-64 Linux alone, and this is a build for {arch} {os}"
        ));
    }
    let dir = match env::var_os("ROSMAREL_LIB_DIR") {
        Some(dir) => given(PathBuf::from(dir))?,
        None => built()?,
    };
    if dir.join(ARCHIVE).is_file() {
        Ok(dir)
    } else {
        Err(format!("there is no {ARCHIVE} in {}", dir.display()))
    }
}

/// The folder that `ROSMAREL_LIB_DIR` names.
fn given(dir: PathBuf) -> Result<PathBuf, String> {
    // a build script runs in the package's folder, not in the caller's
    if !dir.is_absolute() {
        return Err(format!(
            "ROSMAREL_LIB_DIR must be an absolute path: {}",
            dir.display()
        ));
    }
    watch(&dir.join(ARCHIVE));
    Ok(dir)
}

/// The repository's own archive, made anew where it is gone or something that it is made of is newer.
fn built() -> Result<PathBuf, String> {
    let package = PathBuf::from(env::var_os("CARGO_MANIFEST_DIR").expect("cargo sets it"));
    let root = package
        .ancestors()
        .nth(2)
        .filter(|root| root.join("crates.txt").is_file())
        .ok_or_else(|| {
            format!(
                "{} doesn't stand in a Rosmarel repository: \
                 set ROSMAREL_LIB_DIR to the folder that has {ARCHIVE}",
                package.display()
            )
        })?;
    let dir = root.join(FOLDER).join("out");
    let archive = dir.join(ARCHIVE);
    let sources = sources(root);
    for path in sources.iter().chain([&archive]) {
        watch(path);
    }
    let newest = sources.iter().filter_map(|path| newest(path)).max();
    match modified(&archive) {
        Some(made) if newest.is_none_or(|newest| newest <= made) => Ok(dir),
        _ => prove(root).map(|()| dir),
    }
}

/// What the archive is made of: the list of crates, and their sources, specs and proofs.
fn sources(root: &Path) -> Vec<PathBuf> {
    let mut all = vec![root.join("crates.txt")];
    let crates = root.join("crates").read_dir().into_iter().flatten();
    for folder in crates.flatten() {
        let parts = ["src", "specs", "proofs"].map(|part| folder.path().join(part));
        all.extend(parts.into_iter().filter(|part| part.is_dir()));
    }
    all
}

fn modified(path: &Path) -> Option<SystemTime> {
    fs::metadata(path).ok()?.modified().ok()
}

/// When a file, or something in a folder, last changed. A folder counts itself: it changes with a file that is removed.
fn newest(path: &Path) -> Option<SystemTime> {
    let within = path.read_dir().into_iter().flatten().flatten();
    within
        .filter_map(|entry| newest(&entry.path()))
        .chain(modified(path))
        .max()
}

/// Has `rt` prove and build the archive.
fn prove(root: &Path) -> Result<(), String> {
    let folder = root.join(FOLDER);
    let ran = Command::new("rt")
        .args(WORDS)
        .current_dir(&folder)
        .output()
        .map_err(|why| {
            format!(
                "rt, the Rattle toolchain, can't be run ({why}): put it on PATH, \
                 or set ROSMAREL_LIB_DIR to the folder that has {ARCHIVE}"
            )
        })?;
    if ran.status.success() {
        return Ok(());
    }
    let mut why = format!(
        "`rt {}` in {} failed ({})",
        WORDS.join(" "),
        folder.display(),
        ran.status
    );
    for text in [&ran.stdout, &ran.stderr] {
        why.push_str(&last_lines(text));
    }
    Err(why)
}

/// The last twelve lines of what a program said, each on a line of its own.
fn last_lines(text: &[u8]) -> String {
    let text = String::from_utf8_lossy(text);
    let lines: Vec<&str> = text.lines().collect();
    let last = &lines[lines.len().saturating_sub(12)..];
    last.iter().map(|line| format!("\n{line}")).collect()
}

/// Asks the archive for the number of its interface, which has to be this crate's.
fn same_interface(dir: &Path) -> Result<(), String> {
    let archive = dir.join(ARCHIVE);
    let mend = format!(
        "take crate and archive from one revision of Rosmarel: `rt {}` in its {FOLDER} \
         makes the archive, and ROSMAREL_LIB_DIR may name the folder of one that is made",
        WORDS.join(" ")
    );
    let probe = linked_probe(dir)?.map_err(|said| {
        format!(
            "{} doesn't say its interface, and this crate is written for interface {INTERFACE}: {mend}{said}",
            archive.display()
        )
    })?;
    let ran = Command::new(&probe)
        .output()
        .map_err(|why| format!("{} can't be run: {why}", probe.display()))?;
    let number = String::from_utf8_lossy(&ran.stdout).trim().to_string();
    if ran.status.success() && number == INTERFACE.to_string() {
        return Ok(());
    }
    Err(format!(
        "{} has interface {number}, and this crate is written for interface {INTERFACE}: {mend}",
        archive.display()
    ))
}

/// The program that asks, or what the linker said of it.
fn linked_probe(dir: &Path) -> Result<Result<PathBuf, String>, String> {
    let out = PathBuf::from(env::var_os("OUT_DIR").expect("cargo sets it"));
    let (text, probe) = (out.join("probe.rs"), out.join("probe"));
    fs::write(&text, PROBE).map_err(|why| format!("{}: {why}", text.display()))?;
    let mut rustc = Command::new(env::var_os("RUSTC").expect("cargo sets it"));
    rustc.args(["--edition", "2024", "-l", "static=rosmarel", "-L"]);
    rustc.arg(format!("native={}", dir.display()));
    if let Some(linker) = env::var_os("RUSTC_LINKER") {
        rustc.arg("-C");
        rustc.arg(format!("linker={}", linker.to_string_lossy()));
    }
    let ran = rustc
        .arg(&text)
        .arg("-o")
        .arg(&probe)
        .output()
        .map_err(|why| format!("rustc can't be run: {why}"))?;
    Ok(if ran.status.success() {
        Ok(probe)
    } else {
        Err(last_lines(&ran.stderr))
    })
}

fn watch(path: &Path) {
    println!("cargo::rerun-if-changed={}", path.display());
}
