//! A script in the making: each line is run here too, so that the maker can
//! look at what the bench holds and steer.

use crate::bench::{Bench, MOST_INPUT};
use crate::random::Random;
use crate::record::Phase;

pub struct Maker {
    pub random: Random,
    pub bench: Bench,
    pub script: Vec<u8>,
    /// Where the script shall end.
    pub limit: usize,
}

impl Maker {
    pub fn new(random: Random) -> Maker {
        Maker { random, bench: Bench::new(), script: Vec::new(), limit: MOST_INPUT }
    }

    /// Adds a line, unless the script would become too long; answers what the
    /// bench writes. Often the shared record is shown where a report or the chain length
    /// has changed.
    pub fn say(&mut self, line: &str) -> String {
        let (chain, reports) = (self.bench.shared.chain, self.bench.shared.reports);
        let output = self.say_raw(line.as_bytes());
        let after = &self.bench.shared;
        if (after.chain != chain || after.reports != reports) && self.random.once_in(2) {
            self.say_raw(b"shared");
        }
        output
    }

    pub fn say_raw(&mut self, line: &[u8]) -> String {
        if self.script.len() + line.len() + 1 > self.limit.min(MOST_INPUT) {
            return String::new();
        }
        self.script.extend_from_slice(line);
        self.script.push(b'\n');
        self.bench.line(line)
    }

    pub fn has_room(&self) -> bool {
        self.script.len() + 2_000 < self.limit.min(MOST_INPUT)
    }

    /// Joined points' numbers.
    pub fn joined(&self) -> Vec<usize> {
        (0..32).filter(|&p| self.bench.shared.has_joined(p)).collect()
    }

    /// Joined points with a write or a read under way, or without.
    pub fn joined_idle(&self, idle: bool) -> Vec<usize> {
        self.joined().into_iter().filter(|&p| self.bench.records[p].is_idle() == idle).collect()
    }

    pub fn phase(&self, p: usize) -> Phase {
        self.bench.records[p].write.phase
    }

    /// The bench's block count, or 4 where there is none.
    pub fn blocks(&self) -> usize {
        (self.bench.image.len() / 64).max(4)
    }

    /// Steps left until the point's next commit attempt, or its read's final step.
    pub fn steps_to_commit(&self, p: usize) -> usize {
        let write = &self.bench.records[p].write;
        match write.phase {
            Phase::Idle => 0,
            Phase::Zeroing => 65usize.saturating_sub(write.position),
            Phase::Reading if write.text_length >= 1 => {
                write.range_words().saturating_sub(write.position)
            }
            Phase::Filling if write.text_length >= 1 && write.offset <= 131_072 => {
                let end = write.offset + write.text_length.min(1_024);
                let blocks = (end - 1) / 512 - write.offset / 512 + 1;
                (64 * blocks).saturating_sub(write.position)
            }
            _ => 64,
        }
    }

    /// The 64th log block, where the chain has one.
    pub fn last_of_64(&self) -> Option<usize> {
        self.chain_met().get(63).copied()
    }

    /// The log blocks that can be followed from the superblock, at most 64.
    pub fn chain_met(&self) -> Vec<usize> {
        let image = &self.bench.image;
        let mut chain = Vec::new();
        let mut index = image.get(1).copied().unwrap_or(0);
        while index != 0 && index < (image.len() / 64) as u64 && chain.len() < 64 {
            chain.push(index as usize);
            index = image[64 * index as usize];
        }
        chain
    }
}
