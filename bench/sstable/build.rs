//! Puts the Rust's text together in cargo's folder: `index/mod.rs`, `index/v3.rs` and `block_match_automaton.rs` as they
//! are, `common_prefix_len` cut out of `lib.rs`; and `index` a second time for version 4, where the line of the group length
//! alone is another. The text is read from ../shared/docs, seen from the repository, or from the folder that ROSMAREL_RUST
//! names.

use std::path::{Path, PathBuf};
use std::{env, fs};

/// The line of `index/v3.rs` that has the group length, and what it is for version 4.
const GROUPS: &str = "const STORE_BLOCK_LEN: usize = 128;";
const GROUPS_OF_256: &str = "const STORE_BLOCK_LEN: usize = 256;";

fn main() {
    println!("cargo::rerun-if-env-changed=ROSMAREL_RUST");
    println!("cargo::rerun-if-changed=build.rs");
    if let Err(why) = put_together() {
        println!("cargo::error={why}");
    }
}

fn put_together() -> Result<(), String> {
    let out = folder("OUT_DIR");
    let v3 = text("index--v3.rs")?;
    let pruning = out.join("block_match_automaton.rs");
    write(&pruning, &text("block_match_automaton.rs")?)?;
    let modules = [
        ("block_match_automaton", pruning),
        ("index", index(&out.join("index"), &v3)?),
        (
            "index_256",
            index(&out.join("index_256"), &with_groups_of_256(&v3)?)?,
        ),
    ];
    let modules = modules.map(|(name, file)| format!("#[path = {file:?}]\nmod {name};\n"));
    let prefix = function(&text("lib.rs")?, "pub(crate) fn common_prefix_len(")?;
    write(&out.join("text.rs"), &(modules.concat() + &prefix))
}

/// The module `index` in a folder, with this text of its v3.rs.
fn index(folder: &Path, v3: &str) -> Result<PathBuf, String> {
    fs::create_dir_all(folder).map_err(|why| why.to_string())?;
    let here = here();
    let access = here.join("access.rs");
    write(&folder.join("v3.text.rs"), v3)?;
    let v3 = format!("include!(\"v3.text.rs\");\n#[path = {access:?}]\npub mod access;\n");
    write(&folder.join("v3.rs"), &v3)?;
    // a type without values: `index/mod.rs` names the older index
    let v2 = read(&here.join("../../oracle/sstable/v2.rs"))?;
    write(&folder.join("v2.rs"), &v2)?;
    let index = folder.join("mod.rs");
    write(&index, &text("index--mod.rs")?)?;
    Ok(index)
}

/// The text with groups of 256 blocks; the line of their length is all that differs.
fn with_groups_of_256(v3: &str) -> Result<String, String> {
    let changed = v3.replace(GROUPS, GROUPS_OF_256);
    let both = v3.split('\n').zip(changed.split('\n'));
    let differ: Vec<(&str, &str)> = both.filter(|(one, other)| one != other).collect();
    let lines = |text: &str| text.split('\n').count();
    if differ == [(GROUPS, GROUPS_OF_256)] && lines(v3) == lines(&changed) {
        Ok(changed)
    } else {
        Err(format!(
            "{GROUPS} isn't one line of index/v3.rs: {differ:?}"
        ))
    }
}

fn folder(name: &str) -> PathBuf {
    PathBuf::from(env::var_os(name).expect("cargo sets it"))
}

fn here() -> PathBuf {
    folder("CARGO_MANIFEST_DIR")
}

/// A file of the Rust's text.
fn text(name: &str) -> Result<String, String> {
    let rust = env::var_os("ROSMAREL_RUST");
    let rust = rust.map_or(here().join("../../../shared/docs"), PathBuf::from);
    read(&rust.join(format!("src--src--{name}.txt")))
}

fn read(file: &Path) -> Result<String, String> {
    println!("cargo::rerun-if-changed={}", file.display());
    fs::read_to_string(file).map_err(|why| {
        format!(
            "{} ({why}): ROSMAREL_RUST names the folder with the Rust's text",
            file.display()
        )
    })
}

fn write(file: &Path, text: &str) -> Result<(), String> {
    fs::write(file, text).map_err(|why| format!("{}: {why}", file.display()))
}

/// From the line that begins so to the first closing brace at the margin.
fn function(text: &str, begin: &str) -> Result<String, String> {
    let mut lines = text
        .lines()
        .skip_while(|line| !line.starts_with(begin))
        .peekable();
    lines
        .peek()
        .ok_or_else(|| format!("no {begin}.. in lib.rs"))?;
    let mut cut = String::new();
    for line in lines {
        cut += line;
        cut.push('\n');
        if line.starts_with('}') {
            return Ok(cut);
        }
    }
    Err(format!("{begin}.. has no end in lib.rs"))
}
