//! The board of two handlers: a call on each line of standard input, its answer on a line of standard output.

use std::io::{self, BufWriter, Write};

use second::handlers::handlers;

fn main() -> io::Result<()> {
    let mut out = BufWriter::new(io::stdout().lock());
    handlers(io::stdin().lock(), &mut out)?;
    out.flush()
}
