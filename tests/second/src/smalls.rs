//! Random small logs, legal ones and near misses, and what opening makes of them.

use crate::image::{Entry, BLOCK_BYTES};
use crate::random::Random;
use crate::refusal::Refusal;
use crate::small::{judge, BLOCKS};

/// What is to come up among random small logs.
pub const CASES: [&str; 9] = [
    "accepted",
    "refused 7",
    "refused 8",
    "accepted of 0 entries",
    "accepted of 1 entry",
    "accepted of 2 entries",
    "accepted with an overruled log block",
    "refused 8 by a log block",
    "refused 8 by sharing",
];

/// A log of up to two entries of the kind.
pub fn make(mut random: Random) -> Vec<u64> {
    let count = *random.pick(&[0, 1, 1, 2, 2, 2, 2, 2, 2, 2]);
    let first = an_entry(&mut random);
    let second = a_second(&mut random, &first);
    [first.pack(), second.pack()][..count].to_vec()
}

/// Any entry, or one that has to do with the first.
fn a_second(random: &mut Random, first: &Entry) -> Entry {
    match random.below(4) {
        // Covers what it covers, and is not on the log block.
        0 => Entry { b: random.between(2, BLOCKS - first.n), ..*first },
        // The other virtual block on the same block.
        1 if first.n == 1 => Entry { v: 1 - first.v, ..*first },
        _ => an_entry(random),
    }
}

/// Three in four keep the entry's rules; the others break one of them.
fn an_entry(random: &mut Random) -> Entry {
    let (v, n) = *random.pick(&[(0, 1), (1, 1), (0, 2)]);
    let b = random.between(1, BLOCKS - n);
    let mut entry = Entry { v, b, n, u: BLOCK_BYTES, point: 0, rest: 0 };
    match random.below(24) {
        0 => entry.b = 0,
        1 | 2 => entry.b = BLOCKS + 1 - n,
        3 => entry.b = random.between(BLOCKS + 1 - n, 65_535),
        // Covers no block, so v may be anything.
        4 => (entry.v, entry.n) = (*random.pick(&[0, 1, 2, 255, 256, 65_535]), 0),
        5 => entry.rest = 1 << random.below(9),
        _ => {}
    }
    entry
}

/// The block that virtual block v is mapped to by the last entry that covers it.
fn live_at(log: &[u64], v: usize) -> Option<usize> {
    let mut latest = log.iter().rev().map(|&word| Entry::unpack(word));
    latest.find(|entry| entry.covers(v)).map(|entry| entry.b + v - entry.v)
}

/// Those of the cases that this log is one of.
pub fn cases(log: &[u64]) -> Vec<&'static str> {
    let names_log_block = log.iter().any(|&word| Entry::unpack(word).b == 1);
    let log_block_is_live = (0..2).any(|v| live_at(log, v) == Some(1));
    let answer = judge(log).err().map_or(0, Refusal::number);
    let accepted = answer == 0;
    let holds = [
        accepted,
        answer == 7,
        answer == 8,
        accepted && log.is_empty(),
        accepted && log.len() == 1,
        accepted && log.len() == 2,
        accepted && names_log_block,
        answer == 8 && log_block_is_live,
        answer == 8 && !log_block_is_live,
    ];
    CASES.into_iter().zip(holds).filter(|&(_, holds)| holds).map(|(case, _)| case).collect()
}
