//! Bench scripts of logs with full blocks.

use second::image::Entry;

/// The lines that make a log block full and let another follow it.
pub fn full_block(block: usize, next: usize) -> String {
    let entry = Entry { v: 0, b: 3, n: 1, u: 8, point: 0, rest: 0 }.pack();
    let entries = (2..64).map(|slot| format!("set {} {entry}\n", 64 * block + slot));
    format!("set {} {next}\n{}", 64 * block, entries.collect::<String>())
}

/// Points 0 and 1 have joined a laid-out image; then its blocks from 1 on are full and
/// follow each other, as many as are to be entered, and an empty one ends the chain.
pub fn long_chain(blocks: usize, entered: usize) -> String {
    let full: String = (1..=entered).map(|block| full_block(block, block + 1)).collect();
    format!("image {}\nlayout\nopen 1024\njoin 0\njoin 1\n{full}", 64 * blocks)
}
