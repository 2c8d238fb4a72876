//! Writes the calls that the program of two handlers is held to: those listed, then generated ones, the same each time.

use std::io::{self, Write};

use second::corpus::calls;

fn main() -> io::Result<()> {
    io::stdout().write_all(&calls())
}
