//! Counts the answers on standard input, and says which were never met.

use std::io;

use second::tally::Tally;

fn main() -> io::Result<()> {
    print!("{}", Tally::of(io::stdin().lock())?);
    Ok(())
}
