//! `generate SEED COUNT`: pieces for the listing.

use std::process::ExitCode;

use second::generate::{piece, write_lines};

fn main() -> ExitCode {
    write_lines("generate", piece)
}
