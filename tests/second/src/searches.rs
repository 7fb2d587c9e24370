//! What a search meets: the situations in which wrong searches differ.

use crate::image::MOST_BLOCKS;
use crate::map::{find, stretches, Stretch};
use crate::record::Shared;
use crate::tally::happened;

/// The events of a search for `count` blocks that finds a stretch.
pub fn found_events(shared: &Shared, count: usize) -> Vec<&'static str> {
    let Some(chosen) = find(shared, count) else { return Vec::new() };
    let all = stretches(shared);
    let fitting: Vec<Stretch> = all.iter().copied().filter(|s| s.length >= count).collect();
    let equals = fitting.iter().filter(|s| s.length == chosen.length).count();
    let end = chosen.start + chosen.length;
    let is_last = end == shared.blocks;
    let has_rival = fitting.len() > 1;
    happened(&[
        (fitting[0] != chosen, "found, not the first that fits"),
        (equals > 1, "found, lowest of equals"),
        (fitting.iter().any(|s| s.length > chosen.length), "found, not the longest"),
        (chosen.length > count, "found, first blocks of a longer one"),
        (is_last, "found, up to the last block"),
        (chosen.start == 1 && is_clear(shared, 0), "found, beside a clear bit 0"),
        (is_last && has_rival && is_clear(shared, end), "found, before clear bits past the end"),
        (is_last && is_set(shared, end), "found, before set bits past the end"),
        (chosen.start / 64 != (chosen.start + count - 1) / 64, "found, run across map words"),
        (chosen.start.next_multiple_of(64) + 64 <= end, "found, over a whole map word"),
        (all.len() >= 100, "found, among 100 stretches"),
    ])
}

/// The events of a beginning's search that finds none: 19.
pub fn no_run_events(shared: &Shared, count: usize) -> Vec<&'static str> {
    let free: usize = stretches(shared).iter().map(|stretch| stretch.length).sum();
    let run_is_clear = |start: usize| (start..start + count).all(|block| is_clear(shared, block));
    let mut past_the_end = shared.blocks + 1 - count..shared.blocks;
    happened(&[
        (count == 2 && free >= 2, "19 for 2 blocks, enough free"),
        (count == 3 && free >= 3, "19 for 3 blocks, enough free"),
        (run_is_clear(0), "19 beside a clear bit 0"),
        (past_the_end.any(run_is_clear), "19 before clear bits past the end"),
    ])
}

/// The events of a search for a log block that finds one.
pub fn extending_events(shared: &Shared) -> Vec<&'static str> {
    let lowest = stretches(shared).first().copied();
    happened(&[(find(shared, 1) != lowest, "extending, not the lowest free block")])
}

/// The events of a search for a log block that finds none: 21.
pub fn no_log_block_events(shared: &Shared) -> Vec<&'static str> {
    happened(&[
        (is_clear(shared, 0), "21 beside a clear bit 0"),
        (is_clear(shared, shared.blocks), "21 before clear bits past the end"),
    ])
}

/// Whether the map has that bit, at or past the block count too, and it is 0.
fn is_clear(shared: &Shared, block: usize) -> bool {
    block < MOST_BLOCKS && !shared.is_taken(block)
}

/// Whether the map has that bit, and it is 1.
fn is_set(shared: &Shared, block: usize) -> bool {
    block < MOST_BLOCKS && shared.is_taken(block)
}
