//! The table in the repository's README.md, between two marks.

use std::path::Path;
use std::{fs, io};

use crate::report::Report;
use crate::tables::{groups, ratio, table_head, table_line};

pub const BEGIN: &str = "<!-- bench/run writes from here -->";
pub const END: &str = "<!-- to here -->";

/// Ratios of all calls, a line for each group of rows.
pub fn table(report: &Report) -> String {
    let head = [
        "call", "beside", "rows", "least", "median", "most", "bar", "over",
    ];
    let mut out = table_head(&head.map(str::to_string));
    for group in groups(report) {
        out += &table_line(&[
            group.name.to_string(),
            group.call.whose.name().to_string(),
            group.rows.len().to_string(),
            ratio(group.least()),
            ratio(group.median()),
            ratio(group.most()),
            group.bar(),
            group.over(),
        ]);
    }
    out
}

/// The text with another table between the marks, if it has both.
pub fn splice(text: &str, table: &str) -> Option<String> {
    let (front, rest) = text.split_once(BEGIN)?;
    let (_, tail) = rest.split_once(END)?;
    Some(format!("{front}{BEGIN}\n{table}{END}{tail}"))
}

pub fn write(report: &Report, readme: &Path) -> io::Result<()> {
    let text = fs::read_to_string(readme)?;
    let missing = || io::Error::other(format!("{} has no marks for the table", readme.display()));
    let text = splice(&text, &table(report)).ok_or_else(missing)?;
    fs::write(readme, text)
}
