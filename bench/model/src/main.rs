//! Reads a script from standard input, of any length, and writes its listing.

use std::io::{self, Read, Write};

fn main() -> io::Result<()> {
    let mut bytes = Vec::new();
    io::stdin().read_to_end(&mut bytes)?;
    io::stdout().write_all(model::listing::listing(&bytes).as_bytes())
}
