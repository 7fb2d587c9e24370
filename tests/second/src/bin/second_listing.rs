//! The listing program of document 01: an image's bytes on standard input.

use std::io::{self, Read, Write};

fn main() -> io::Result<()> {
    let mut bytes = Vec::new();
    io::stdin().take(second::listing::MOST_BYTES as u64 + 1).read_to_end(&mut bytes)?;
    io::stdout().write_all(second::listing::listing(&bytes).as_bytes())
}
