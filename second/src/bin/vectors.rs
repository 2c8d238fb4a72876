//! Answers the questions on standard input, one to a line.

use std::io::{self, BufWriter, Write};

use second::vectors::vectors;

fn main() -> io::Result<()> {
    let mut out = BufWriter::new(io::stdout().lock());
    vectors(io::stdin().lock(), &mut out)?;
    out.flush()
}
