//! The certify program: standard input to one line.

use std::io::{self, Read, Write};

fn main() -> io::Result<()> {
    let mut input = Vec::new();
    io::stdin().read_to_end(&mut input)?;
    io::stdout().write_all(epm_reference::run(&input).as_bytes())
}
