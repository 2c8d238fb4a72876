//! The listing with a mark under the place of each refusal: standard input to standard output.

use std::io::{self, BufWriter, Write};

use second::programs::mark;

fn main() -> io::Result<()> {
    let mut out = BufWriter::new(io::stdout().lock());
    mark(io::stdin().lock(), &mut out)?;
    out.flush()
}
