//! Images that open, for the inspector: of all sizes, with what a damage has to know.

use crate::digest::noise;
use crate::forge::{any_plan, forge, plan_with, Forged, Plan};
use crate::image::*;
use crate::random::Random;

/// An image that opens.
#[derive(Clone, Debug)]
pub struct Sound {
    pub image: Vec<u64>,
    pub chain: Vec<usize>,
    pub table: [u16; 256],
    pub length: usize,
}

impl Sound {
    pub fn of(forged: &Forged) -> Sound {
        let Forged { chain, table, length, .. } = forged;
        Sound { image: forged.image(), chain: chain.clone(), table: *table, length: *length }
    }

    pub fn blocks(&self) -> usize {
        block_count(&self.image)
    }

    /// Where the entries of these log blocks stand, in order.
    pub fn entries_in(&self, chain: &[usize]) -> Vec<usize> {
        let slots = |&block: &usize| place_of(block, FIRST_SLOT)..place_of(block, END_SLOT);
        chain.iter().flat_map(slots).filter(|&place| self.image[place] != 0).collect()
    }

    /// Where the log's entries stand, in order.
    pub fn log(&self) -> Vec<usize> {
        self.entries_in(&self.chain)
    }

    /// The slots behind the last entry.
    pub fn empty_slots(&self) -> Vec<usize> {
        let last = self.chain[self.chain.len() - 1];
        (place_of(last, FIRST_SLOT)..place_of(last, END_SLOT)).filter(|&place| self.image[place] == 0).collect()
    }

    /// The blocks that are neither superblock nor log nor live.
    pub fn free(&self) -> Vec<usize> {
        let is_free = |block: &usize| !self.chain.contains(block) && !self.table.contains(&(*block as u16));
        (1..self.blocks()).filter(is_free).collect()
    }
}

/// An image of these log blocks and entries; the other blocks are zeros, or noise, and
/// what lies past the file's end is 0.
pub fn assemble(blocks: usize, chain: &[usize], log: &[Entry], seed: Option<u64>) -> Sound {
    let mut image = vec![0; BLOCK_WORDS * blocks];
    if let Some(seed) = seed {
        noise(&mut image, seed);
    }
    image[..BLOCK_WORDS].fill(0);
    image[0] = MARK;
    image[1] = chain[0] as u64;
    for (i, &block) in chain.iter().enumerate() {
        image[place_of(block, 0)..place_of(block, END_SLOT)].fill(0);
        image[place_of(block, 0)] = chain.get(i + 1).map_or(0, |&next| next as u64);
        for (slot, entry) in log.iter().skip(62 * i).take(62).enumerate() {
            image[place_of(block, FIRST_SLOT + slot)] = entry.pack();
        }
    }
    let (mut table, mut length) = ([0; 256], 0);
    for entry in log {
        for i in 0..entry.n {
            table[entry.v + i] = (entry.b + i) as u16;
        }
        length = length.max(entry.end());
    }
    let mut sound = Sound { image, chain: chain.to_vec(), table, length };
    for byte in sound.length..sound.length.next_multiple_of(BLOCK_BYTES) {
        let place = place_of(usize::from(table[byte / BLOCK_BYTES]), byte % BLOCK_BYTES / 8);
        sound.image[place] &= !(0xFF << (8 * (byte % 8)));
    }
    sound
}

/// An entry of a plain point.
pub fn entry(v: usize, b: usize, n: usize, u: usize) -> Entry {
    Entry { v, b, n, u, point: (v + b) % 32, rest: 0 }
}

/// So many blocks in any order, from block 1 on.
fn shuffled(random: &mut Random, blocks: usize) -> Vec<usize> {
    let mut order: Vec<usize> = (1..blocks).collect();
    for i in 0..order.len() {
        let other = random.below(order.len());
        order.swap(i, other);
    }
    order
}

/// Every block outside the log is live; entries as long as the rows of such blocks, and
/// each now and then once more.
pub fn without_free_blocks(random: &mut Random, blocks: usize, log_blocks: usize) -> Sound {
    let chain = shuffled(random, blocks)[..log_blocks].to_vec();
    let mut log = Vec::new();
    let mut v = *random.pick(&[0, 0, 256 - (blocks - 1 - log_blocks)]);
    let mut block = 1;
    while block < blocks {
        let most = random.between(1, 64);
        let n = (block..blocks.min(block + most)).take_while(|other| !chain.contains(other)).count();
        if n > 0 {
            log.push(entry(v, block, n, random.between(1, BLOCK_BYTES)));
        }
        v += n;
        block += n.max(1);
    }
    // All log blocks but the last are full, and the last has room for what is left.
    while log.len() <= 62 * (log_blocks - 1) || (log.len() < 62 * log_blocks && random.once_in(2)) {
        let again = *random.pick(&log);
        log.insert(random.below(log.len() + 1), again);
    }
    let seed = random.any();
    assemble(blocks, &chain, &log, Some(seed))
}

/// Any image that opens, of one of several kinds.
pub fn any_sound(random: &mut Random) -> Sound {
    let plan = match random.below(10) {
        0 if random.once_in(2) => return long_entries(random),
        // Laid out, its other blocks anything.
        0 => return laid_out(random),
        1 => {
            let log_blocks = random.between(1, 3);
            // Each block may need an entry of its own.
            let blocks = random.between(log_blocks + 2, 62 * log_blocks).clamp(4, 190);
            return without_free_blocks(random, blocks, log_blocks);
        }
        2 => full_blocks(random),
        3 => {
            let blocks = *random.pick(&[66, 128, 128, 300, 1_024]);
            let full = random.between(62, 64);
            plan_with(random, blocks, full)
        }
        4 => Plan { reach: 256, spare: 0, ..any_plan(random, 1_024) },
        5 | 6 => any_plan(random, 24),
        7 => Plan { reach: 3, ..any_plan(random, 64) },
        8 => any_plan(random, 1_024),
        _ => any_plan(random, 128),
    };
    Sound::of(&forge(random, plan))
}

fn laid_out(random: &mut Random) -> Sound {
    let blocks = *random.pick(&[4, 5, 63, 64, 65, 128, 1_023, 1_024]);
    let log_block = random.between(1, blocks - 1);
    let seed = random.any();
    assemble(blocks, &[log_block], &[], Some(seed))
}

/// Some entries of 63 or 64 blocks, each in blocks of its own, the last of them up to the
/// image's end; the log block stands between.
pub fn long_entries(random: &mut Random) -> Sound {
    let count = random.between(1, 12);
    let blocks = 2 + 64 * count;
    let log_block = 1 + 64 * random.below(count + 1);
    let run = |i: usize| 1 + 64 * i + usize::from(1 + 64 * i >= log_block);
    let mut log = Vec::new();
    for i in 0..count {
        let n = random.between(63, 64);
        let v = *random.pick(&[0, 63, 128, 192]);
        log.push(entry(v, run(i), n, random.between(1, BLOCK_BYTES)));
    }
    let seed = random.any();
    assemble(blocks, &[log_block], &log, Some(seed))
}

/// Full log blocks alone, or an empty one behind them.
fn full_blocks(random: &mut Random) -> Plan {
    let full = random.between(1, 5);
    let blocks = random.between(full + 3, 100);
    let more = *random.pick(&[None, Some(0)]);
    Plan { more, ..plan_with(random, blocks, full) }
}
