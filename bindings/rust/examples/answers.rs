//! Answers requests on standard input, one to a line, as the program `ndimage` does, and says where a call did not leave lent cells as it
//! promised. The text is trusted; compare/run uses it.
use std::io::{BufRead, Write};

#[path = "../tests/requests/mod.rs"]
mod requests;

fn main() -> std::io::Result<()> {
    let mut out = std::io::BufWriter::new(std::io::stdout().lock());
    for line in std::io::stdin().lock().lines() {
        writeln!(out, "{}", requests::answer(&line?))?;
    }
    out.flush()
}
