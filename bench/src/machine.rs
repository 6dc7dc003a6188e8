//! What the figures were taken on.

use std::fs;
use std::process::Command;

fn said(program: &str, words: &[&str]) -> Option<String> {
    let ran = Command::new(program).args(words).output().ok()?;
    let text = String::from_utf8_lossy(&ran.stdout).trim().to_string();
    (ran.status.success() && !text.is_empty()).then_some(text)
}

fn read(path: &str) -> Option<String> {
    let text = fs::read_to_string(path).ok()?;
    Some(text.trim().to_string())
}

/// The first value of a name in a file of lines such as `name : value`.
fn value(path: &str, name: &str) -> Option<String> {
    let text = read(path)?;
    let mut lines = text.lines().filter_map(|line| line.split_once(':'));
    let (_, value) = lines.find(|(one, _)| one.trim() == name)?;
    Some(value.trim().to_string())
}

/// The processor's caches, as `L1 data 48K`.
fn caches() -> Option<String> {
    let folder = "/sys/devices/system/cpu/cpu0/cache";
    let of = |i: usize| {
        let part = |name: &str| read(&format!("{folder}/index{i}/{name}"));
        let kind = part("type")?.to_lowercase().replace("unified", "");
        let name = format!("L{} {kind}", part("level")?);
        Some(format!("{} {}", name.trim(), part("size")?))
    };
    let all: Vec<String> = (0..8).map_while(of).collect();
    (!all.is_empty()).then(|| all.join(", "))
}

/// The names that an archive leaves to others.
pub fn undefined(archive: &str) -> Option<Vec<String>> {
    let text = said("nm", &["-u", archive])?;
    let mut names: Vec<String> = text
        .lines()
        .filter_map(|line| line.trim().strip_prefix("U "))
        .map(str::to_string)
        .collect();
    names.sort_unstable();
    names.dedup();
    Some(names)
}

/// Name and value, a line each.
pub fn lines() -> Vec<(&'static str, String)> {
    let unknown = || "not known".to_string();
    let cpu = |name| value("/proc/cpuinfo", name).unwrap_or_else(unknown);
    let cores = std::thread::available_parallelism().map_or_else(|_| unknown(), |n| n.to_string());
    vec![
        ("processor", cpu("model name")),
        (
            "family, model, stepping",
            format!(
                "{}, {}, {}",
                cpu("cpu family"),
                cpu("model"),
                cpu("stepping")
            ),
        ),
        ("cores at hand", cores),
        ("caches", caches().unwrap_or_else(unknown)),
        (
            "memory",
            value("/proc/meminfo", "MemTotal").unwrap_or_else(unknown),
        ),
        (
            "kernel",
            read("/proc/sys/kernel/osrelease").unwrap_or_else(unknown),
        ),
        (
            "rustc",
            said("rustc", &["--version"]).unwrap_or_else(unknown),
        ),
        (
            "Rattle toolchain",
            said("rt", &["version"]).unwrap_or_else(unknown),
        ),
    ]
}
