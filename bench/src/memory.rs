//! What the document says of memory, from the lines of the program `memory`.

use crate::machine;
use crate::tables::{table_head, table_line, thousands, wrap};

/// A line: call, n, stack, and the Rust's allocations and their bytes, if there is a counterpart.
struct Taken<'a> {
    call: &'a str,
    n: usize,
    stack: usize,
    rust: Option<(usize, usize)>,
}

impl<'a> Taken<'a> {
    fn read(line: &'a str) -> Option<Taken<'a>> {
        let mut parts = line.split('\t');
        let call = parts.next()?;
        let mut number = || parts.next()?.parse().ok();
        let (n, stack) = (number()?, number()?);
        let rust = number().zip(number());
        Some(Taken {
            call,
            n,
            stack,
            rust,
        })
    }

    fn allocates(&self) -> String {
        match self.rust {
            Some((0, _)) => "nothing".to_string(),
            Some((count, bytes)) => format!("{} in {}", thousands(bytes), thousands(count)),
            None => String::new(),
        }
    }
}

pub fn section(memory: &str, archive: Option<&str>) -> String {
    let mut said = String::new();
    if let Some(names) = archive.and_then(machine::undefined) {
        said += &format!(
            "The library allocates nothing: all that the archive takes from others is `{}` (`nm -u`). ",
            names.join("`, `")
        );
    }
    let all: Vec<Taken> = memory.lines().filter_map(Taken::read).collect();
    if let Some(deepest) = all.iter().max_by_key(|taken| taken.stack) {
        said += &format!(
            "Its deepest stack is that of `{}`, {} bytes. ",
            deepest.call,
            thousands(deepest.stack)
        );
    }
    said += STACK;
    format!("## Memory\n\n{}\n\n{}\n", wrap(&said, ""), table(&all))
}

const STACK: &str = "Stacks were measured by painting one of 4 MB, on which each call ran, over the keys long-shared and the \
pattern \"follows half (64)\": the bytes from the top to the deepest one that the call changed. Of both versions the deeper \
stack is told. Beside them what the Rust's counterpart, over the stand-ins, allocates in one call in version 3, bytes in so many \
pieces; for `rosmarel_can_block_match` and the listing, \
which is the one that marks, the automaton is in it.";

fn table(all: &[Taken]) -> String {
    let mut sizes: Vec<usize> = all.iter().map(|taken| taken.n).collect();
    sizes.dedup();
    let mut head = vec!["call".to_string()];
    for what in ["stack", "Rust allocates"] {
        let name = |n: &usize| format!("{what}, n = {}", thousands(*n));
        head.extend(sizes.iter().map(name));
    }
    let mut out = table_head(&head);
    let first = sizes.first().copied();
    for taken in all.iter().filter(|taken| Some(taken.n) == first) {
        let of_call = || all.iter().filter(|one| one.call == taken.call);
        let mut cells = vec![format!("`{}`", taken.call)];
        cells.extend(of_call().map(|one| thousands(one.stack)));
        cells.extend(of_call().map(Taken::allocates));
        out += &table_line(&cells);
    }
    out
}
