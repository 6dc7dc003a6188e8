//! The declarations in `src/ffi.rs` against the exported functions' own text: the linker compares names alone.

use std::collections::BTreeMap;
use std::fs;
use std::path::Path;

/// Parameters with their types, then the type that is returned.
type Signature = Vec<String>;

/// All functions `rosmarel_..` of a text, their parameters as written.
fn signatures(text: &str) -> BTreeMap<String, (Vec<(String, String)>, String)> {
    let mut all = BTreeMap::new();
    for found in text.split("fn rosmarel_").skip(1) {
        let (name, rest) = found.split_once('(').unwrap();
        let (parameters, rest) = rest.split_once(')').unwrap();
        let parameters = parameters
            .split(',')
            .map(str::trim)
            .filter(|parameter| !parameter.is_empty())
            .map(|parameter| {
                let (name, of) = parameter.split_once(':').unwrap();
                (name.trim().to_string(), of.trim().to_string())
            })
            .collect();
        let returned = rest.trim_start().strip_prefix("->").unwrap_or("");
        let end = |c: char| !c.is_alphanumeric();
        let returned = returned.trim_start().split(end).next().unwrap();
        all.insert(name.to_string(), (parameters, returned.to_string()));
    }
    all
}

/// A parameter as C passes it.
fn passed(name: &str, of: &str) -> Vec<String> {
    let (pointer, of) = if let Some(of) = of.strip_prefix("&mut ") {
        ("*mut", of)
    } else if let Some(of) = of.strip_prefix('&') {
        ("*const", of)
    } else {
        return vec![format!("{name}: {of}")];
    };
    // records of three numbers, and the opened record
    let of = of
        .replace("[u64; 3]", "BlockAddr")
        .replace("[u64; 9]", "Opened");
    match of.strip_prefix('[').and_then(|of| of.strip_suffix(']')) {
        Some(of) => vec![
            format!("{name}: {pointer} {of}"),
            format!("{name}_len: usize"),
        ],
        None => vec![format!("{name}: {pointer} {of}")],
    }
}

fn read(path: &Path) -> String {
    fs::read_to_string(path).unwrap_or_else(|why| panic!("{}: {why}", path.display()))
}

#[test]
fn declared_as_exported() {
    let package = Path::new(env!("CARGO_MANIFEST_DIR"));
    let as_declared = |(parameters, returned): (Vec<(String, String)>, String)| -> Signature {
        let parameters = parameters.iter().map(|(name, of)| format!("{name}: {of}"));
        parameters.chain([returned]).collect()
    };
    let declared: BTreeMap<String, Signature> = signatures(&read(&package.join("src/ffi.rs")))
        .into_iter()
        .map(|(name, signature)| (name, as_declared(signature)))
        .collect();

    let mut exported: BTreeMap<String, Signature> = BTreeMap::new();
    let sources = package.join("../../crates/rosmarel/src");
    for file in fs::read_dir(&sources).unwrap() {
        for (name, (parameters, returned)) in signatures(&read(&file.unwrap().path())) {
            let parameters = parameters.iter().flat_map(|(name, of)| passed(name, of));
            exported.insert(name, parameters.chain([returned]).collect());
        }
    }
    let names =
        |all: &BTreeMap<String, Signature>| -> Vec<String> { all.keys().cloned().collect() };
    assert_eq!(names(&declared), names(&exported));
    assert_eq!(declared.len(), 18);
    for (name, signature) in &declared {
        assert_eq!(signature, &exported[name], "rosmarel_{name}");
    }
}
