//! Tables of rows.

use crate::calls::{Call, calls};
use crate::report::{Report, Row, three};

pub fn thousands(n: usize) -> String {
    let digits = n.to_string();
    let mut out = String::new();
    for (i, digit) in digits.chars().enumerate() {
        if i > 0 && (digits.len() - i) % 3 == 0 {
            out.push(',');
        }
        out.push(digit);
    }
    out
}

pub fn table_line(cells: &[String]) -> String {
    format!("| {} |\n", cells.join(" | "))
}

pub fn table_head(cells: &[String]) -> String {
    table_line(cells) + &format!("|{}\n", "---|".repeat(cells.len()))
}

/// Rows of a call.
pub fn rows<'a>(report: &'a Report, what: &str) -> Vec<&'a Row> {
    report.rows.iter().filter(|row| row.what == what).collect()
}

/// The workloads of a call, in the order in which they were measured.
pub fn loads<'a>(rows: &[&'a Row]) -> Vec<&'a str> {
    let mut loads: Vec<&str> = Vec::new();
    for row in rows {
        if !loads.contains(&row.load.as_str()) {
            loads.push(&row.load);
        }
    }
    loads
}

fn sizes(rows: &[&Row]) -> Vec<usize> {
    let mut sizes: Vec<usize> = rows.iter().map(|row| row.n).collect();
    sizes.sort_unstable();
    sizes.dedup();
    sizes
}

/// A table with a line for each workload and a column for each n.
pub fn by_size(rows: &[&Row], cell: impl Fn(&Row) -> String) -> String {
    let sizes = sizes(rows);
    let mut head = vec!["workload".to_string()];
    head.extend(sizes.iter().map(|&n| format!("n = {}", thousands(n))));
    let mut out = table_head(&head);
    for load in loads(rows) {
        let mut cells = vec![load.to_string()];
        for &n in &sizes {
            let row = rows.iter().find(|row| row.load == load && row.n == n);
            cells.push(row.map_or(String::new(), |row| cell(row)));
        }
        out += &table_line(&cells);
    }
    out + "\n"
}

/// The row's ratio, bold where it is over its bar.
pub fn ratio(row: &Row) -> String {
    let told = row.ratio().map_or(String::new(), three);
    if row.over() {
        format!("**{told}**")
    } else {
        told
    }
}

/// Rows of a call that are summed up together: those that have a ratio, from the lowest to the highest.
pub struct Group<'a> {
    pub call: &'static Call,
    pub name: &'static str,
    pub rows: Vec<&'a Row>,
}

impl<'a> Group<'a> {
    pub fn bar(&self) -> String {
        let bar = self.rows[0].bar;
        bar.map_or("none".to_string(), |bar| bar.to_string())
    }

    /// How many are over their bar, if there is one.
    pub fn over(&self) -> String {
        let over = self.rows.iter().filter(|row| row.over()).count();
        let bar = self.rows[0].bar;
        bar.map_or(String::new(), |_| over.to_string())
    }

    pub fn least(&self) -> &'a Row {
        self.rows[0]
    }

    pub fn median(&self) -> &'a Row {
        self.rows[self.rows.len() / 2]
    }

    pub fn most(&self) -> &'a Row {
        self.rows[self.rows.len() - 1]
    }
}

/// All groups, in the calls' order.
pub fn groups(report: &Report) -> Vec<Group<'_>> {
    let mut all = Vec::new();
    for call in calls() {
        let mut left = rows(report, call.what);
        left.retain(|row| row.ratio().is_some());
        left.sort_by_key(|row| row.group);
        for rows in left.chunk_by(|one, other| one.group == other.group) {
            let mut rows = rows.to_vec();
            rows.sort_by(|one, other| one.ratio().unwrap().total_cmp(&other.ratio().unwrap()));
            all.push(Group {
                call,
                name: rows[0].group,
                rows,
            });
        }
    }
    all
}

/// Lines of at most so many characters. Later lines begin with `indent`.
pub fn wrap(text: &str, indent: &str) -> String {
    const MOST: usize = 136;
    let mut out = String::new();
    let mut wide = 0;
    for word in text.split_whitespace() {
        let more = word.chars().count();
        if wide > 0 && wide + 1 + more > MOST {
            out += "\n";
            out += indent;
            wide = indent.len();
        } else if wide > 0 {
            out.push(' ');
            wide += 1;
        }
        out += word;
        wide += more;
    }
    out
}
