//! The desk: a strip, and each later piece of standard input offered to it.

use std::io::{self, BufWriter, Write};

use second::programs::desk;

fn main() -> io::Result<()> {
    let mut out = BufWriter::new(io::stdout().lock());
    desk(io::stdin().lock(), &mut out)?;
    out.flush()
}
