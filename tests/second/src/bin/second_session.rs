//! The session program: a script on standard input, its output on standard
//! output.

use std::io::{self, Read, Write};

fn main() -> io::Result<()> {
    let mut script = Vec::new();
    io::stdin().take(second::bench::MOST_INPUT as u64 + 1).read_to_end(&mut script)?;
    io::stdout().write_all(&second::bench::run(&script))
}
