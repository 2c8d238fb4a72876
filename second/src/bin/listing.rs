//! The listing program of document 01: standard input to standard output.

use std::io::{self, BufWriter, Write};

use second::programs::listing;

fn main() -> io::Result<()> {
    let mut out = BufWriter::new(io::stdout().lock());
    listing(io::stdin().lock(), &mut out)?;
    out.flush()
}
