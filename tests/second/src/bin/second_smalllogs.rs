//! The program of K9: it reads nothing and prints every small log.

use std::io::{self, Write};

fn main() -> io::Result<()> {
    io::stdout().write_all(second::small::smalllogs().as_bytes())
}
