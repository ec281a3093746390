//! The explain program: standard input to the line of certify and one in words.

use std::io::{self, Read, Write};

fn main() -> io::Result<()> {
    let mut input = Vec::new();
    io::stdin().read_to_end(&mut input)?;
    io::stdout().write_all(&epm_reference::explain(&input))
}
