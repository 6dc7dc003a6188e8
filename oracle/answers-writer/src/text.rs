//! Lines of a list.

use std::fmt::Write;

/// A byte string as a list has it: `x`, then lower-case hex.
pub fn hex(bytes: &[u8]) -> String {
    let mut text = "x".to_string();
    for byte in bytes {
        write!(text, "{byte:02x}").unwrap();
    }
    text
}

/// Numbers with one space between and one behind.
pub fn numbers(values: &[u64]) -> String {
    let mut text = String::new();
    for value in values {
        write!(text, "{value} ").unwrap();
    }
    text
}

/// A list: comment lines and cases, no case twice.
pub struct List {
    text: String,
    seen: std::collections::HashSet<String>,
}

impl List {
    pub fn new() -> List {
        List {
            text: String::new(),
            seen: Default::default(),
        }
    }

    pub fn comment(&mut self, lines: &[&str]) {
        for line in lines {
            writeln!(self.text, "{}", format!("# {line}").trim_end()).unwrap();
        }
    }

    pub fn case(&mut self, line: String) {
        if self.seen.insert(line.clone()) {
            writeln!(self.text, "{line}").unwrap();
        }
    }

    pub fn text(self) -> String {
        self.text
    }
}
