//! The inspector of INSPECT.md: an image's bytes on standard input.

use std::io::{self, Read, Write};

fn main() -> io::Result<()> {
    let mut bytes = Vec::new();
    io::stdin().take(second::inspect::MOST_BYTES as u64 + 1).read_to_end(&mut bytes)?;
    io::stdout().write_all(second::inspect::inspect(&bytes).as_bytes())
}
