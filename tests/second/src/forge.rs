//! Random images with lawful logs, and ways to damage them.

use crate::digest::noise;
use crate::image::*;
use crate::random::Random;

/// What an image shall hold.
#[derive(Clone, Copy, Debug)]
pub struct Plan {
    pub blocks: usize,
    /// Full log blocks at the chain's head.
    pub full: usize,
    /// Entries in one more log block, if there is one more.
    pub more: Option<usize>,
    /// Free blocks that shall be left, where that can be had.
    pub spare: usize,
    /// How many virtual blocks the writes go to.
    pub reach: usize,
    /// The greatest count of used bytes in an entry.
    pub used: usize,
}

/// An image as what is put into zeros: noise, then words.
#[derive(Clone, Debug)]
pub struct Forged {
    pub blocks: usize,
    pub chain: Vec<usize>,
    pub noise: Vec<(usize, usize, u64)>,
    pub sets: Vec<(usize, u64)>,
    pub table: [u16; 256],
    pub length: usize,
}

impl Forged {
    pub fn image(&self) -> Vec<u64> {
        let mut image = vec![0; BLOCK_WORDS * self.blocks];
        for &(first, count, seed) in &self.noise {
            noise(&mut image[first..first + count], seed);
        }
        for &(place, value) in &self.sets {
            image[place] = value;
        }
        image
    }

    /// The bench lines that make the image.
    pub fn lines(&self) -> Vec<String> {
        let mut lines = vec![format!("image {}", BLOCK_WORDS * self.blocks)];
        lines.extend(self.noise.iter().map(|(a, n, s)| format!("noise {a} {n} {s}")));
        lines.extend(self.sets.iter().map(|(a, v)| format!("set {a} {v}")));
        lines
    }

    /// Where the log's next entry would go, if its last block has room.
    pub fn tail(&self) -> Option<usize> {
        let last = *self.chain.last()?;
        let image = self.image();
        (FIRST_SLOT..END_SLOT).map(|slot| place_of(last, slot)).find(|&place| image[place] == 0)
    }
}

/// A work in progress: which blocks are taken and what is mapped.
struct Forge<'a> {
    random: &'a mut Random,
    plan: Plan,
    is_log: Vec<bool>,
    is_live: Vec<bool>,
    table: [u16; 256],
    length: usize,
}

/// An image after the plan.
pub fn forge(random: &mut Random, plan: Plan) -> Forged {
    let chain = choose_chain(random, &plan);
    let mut is_log = vec![false; plan.blocks];
    for &block in &chain {
        is_log[block] = true;
    }
    let is_live = vec![false; plan.blocks];
    let mut forge = Forge { random, plan, is_log, is_live, table: [0; 256], length: 0 };
    let mut sets = vec![(0, MARK), (1, chain[0] as u64)];
    for (i, &block) in chain.iter().enumerate() {
        let count = if i < plan.full { 62 } else { plan.more.unwrap_or(0) };
        sets.extend(chain.get(i + 1).map(|&next| (place_of(block, 0), next as u64)));
        for slot in FIRST_SLOT..FIRST_SLOT + count {
            sets.push((place_of(block, slot), forge.entry().pack()));
        }
    }
    let noise = forge.noise();
    let (table, length) = (forge.table, forge.length);
    let mut forged = Forged { blocks: plan.blocks, chain, noise, sets, table, length };
    clean_end(&mut forged);
    forged
}

fn choose_chain(random: &mut Random, plan: &Plan) -> Vec<usize> {
    let count = plan.full + usize::from(plan.more.is_some());
    let mut blocks: Vec<usize> = (1..plan.blocks).collect();
    if !random.once_in(3) {
        for i in 0..blocks.len() {
            let other = random.below(blocks.len());
            blocks.swap(i, other);
        }
    }
    blocks.truncate(count.max(1));
    blocks
}

/// Zeroes the bytes at and past the file's end in its last live block.
fn clean_end(forged: &mut Forged) {
    if forged.length == 0 {
        return;
    }
    let image = forged.image();
    let block = usize::from(forged.table[(forged.length - 1) / BLOCK_BYTES]);
    let used = (forged.length - 1) % BLOCK_BYTES + 1;
    for w in used / 8..BLOCK_WORDS {
        let place = place_of(block, w);
        let kept = used.saturating_sub(8 * w).min(8);
        let mask = if kept == 8 { u64::MAX } else { (1 << (8 * kept)) - 1 };
        if image[place] & mask != image[place] {
            forged.sets.push((place, image[place] & mask));
        }
    }
}

impl Forge<'_> {
    fn is_free(&self, block: usize) -> bool {
        block >= 1
            && block < self.plan.blocks
            && !self.is_log[block]
            && !self.is_live[block]
    }

    /// A lawful entry that keeps live blocks live once; it is taken in.
    fn entry(&mut self) -> Entry {
        let entry = self.fresh_entry().unwrap_or_else(|| self.repeated_entry());
        for i in 0..entry.n {
            self.is_live[usize::from(self.table[entry.v + i])] = false;
            self.is_live[entry.b + i] = true;
            self.table[entry.v + i] = (entry.b + i) as u16;
        }
        self.length = self.length.max(entry.end());
        entry
    }

    fn count(&mut self) -> usize {
        match self.random.below(12) {
            0 => self.random.between(1, 64),
            1..=3 => 3,
            4..=6 => 2,
            _ => 1,
        }
    }

    fn used(&mut self) -> usize {
        if self.random.once_in(3) {
            self.plan.used
        } else {
            self.random.between(1, self.plan.used)
        }
    }

    /// An entry into free blocks, if a run is met and enough stay free.
    fn fresh_entry(&mut self) -> Option<Entry> {
        let n = self.count().min(self.plan.reach);
        let b = self.random.between(1, self.plan.blocks - 1);
        let v = self.random.between(0, self.plan.reach.min(FILE_BLOCKS) - n);
        if !(b..b + n).all(|block| self.is_free(block)) {
            return None;
        }
        let free = (1..self.plan.blocks).filter(|&block| self.is_free(block)).count();
        let replaced = (v..v + n).filter(|&v| self.table[v] != 0).count();
        if free + replaced < self.plan.spare + n {
            return None;
        }
        let (u, point) = (self.used(), self.random.below(32));
        Some(Entry { v, b, n, u, point, rest: 0 })
    }

    /// An entry that maps a live block to itself again, or any free block.
    fn repeated_entry(&mut self) -> Entry {
        let live: Vec<usize> = (0..FILE_BLOCKS).filter(|&v| self.table[v] != 0).collect();
        let (u, point) = (self.used(), self.random.below(32));
        if live.is_empty() {
            let b = (1..self.plan.blocks).find(|&block| self.is_free(block)).unwrap_or(1);
            return Entry { v: 0, b, n: 1, u, point, rest: 0 };
        }
        let v = *self.random.pick(&live);
        Entry { v, b: usize::from(self.table[v]), n: 1, u, point, rest: 0 }
    }

    /// Noise over stretches of blocks outside the log.
    fn noise(&mut self) -> Vec<(usize, usize, u64)> {
        let mut noise = Vec::new();
        let mut first = 1;
        for block in 1..=self.plan.blocks {
            if block == self.plan.blocks || self.is_log[block] {
                if block > first && !self.random.once_in(8) {
                    let seed = self.random.any();
                    noise.push((place_of(first, 0), BLOCK_WORDS * (block - first), seed));
                }
                first = block + 1;
            }
        }
        noise
    }
}

/// Damages an accepted image so that opening most likely refuses with `kind`,
/// 3 to 9.
pub fn damage(random: &mut Random, forged: &mut Forged, kind: usize) {
    let image = forged.image();
    let block = *random.pick(&forged.chain);
    let last = forged.chain.last().copied().unwrap_or(1);
    let blocks = forged.blocks as u64;
    let set = match kind {
        3 => damage_superblock(random, &image),
        4 => {
            let bad = *random.pick(&[blocks, blocks + 1, 65_536, 1 << 32, u64::MAX]);
            *random.pick(&[(1, 0), (1, bad), (place_of(last, 0), bad), (place_of(block, 0), bad)])
        }
        5 => (place_of(last, 0), block as u64),
        6 => damage_log_block(random, &image, block, last),
        7 => damage_entry(random, &image, forged, block),
        8 => {
            let place = forged.tail().unwrap_or(place_of(last, END_SLOT - 1));
            (place, sharing_entry(random, forged).pack())
        }
        _ => damage_end(random, &image, forged),
    };
    forged.sets.push(set);
}

fn damage_superblock(random: &mut Random, image: &[u64]) -> (usize, u64) {
    let place = *random.pick(&[0, 2, 3, 31, 62, 63]);
    let flip = 1 << random.below(64);
    (place, image[place] ^ flip)
}

fn damage_log_block(
    random: &mut Random,
    image: &[u64],
    block: usize,
    last: usize,
) -> (usize, u64) {
    match random.below(3) {
        0 => (place_of(block, 1), 1 << random.below(64)),
        1 => {
            let slot = random.between(FIRST_SLOT, END_SLOT - 2);
            let value = if image[place_of(block, slot + 1)] != 0 { 0 } else { image[0] };
            let place = if value == 0 { place_of(block, slot) } else { place_of(last, 63) };
            (place, value)
        }
        _ => (place_of(block, random.between(FIRST_SLOT, END_SLOT - 1)), 0),
    }
}

/// Breaks one rule of an entry that is there, or puts a broken one at the tail.
fn damage_entry(
    random: &mut Random,
    image: &[u64],
    forged: &Forged,
    block: usize,
) -> (usize, u64) {
    let slots: Vec<usize> = (FIRST_SLOT..END_SLOT)
        .filter(|&slot| image[place_of(block, slot)] != 0)
        .collect();
    let place = if slots.is_empty() {
        forged.tail().unwrap_or(place_of(block, FIRST_SLOT))
    } else {
        place_of(block, *random.pick(&slots))
    };
    let good = if image[place] == 0 { 0x0000_0201_0001_0000 } else { image[place] };
    (place, broken_entry(random, good, forged.blocks))
}

/// An entry word with one field out of its range or at its border.
pub fn broken_entry(random: &mut Random, word: u64, blocks: usize) -> u64 {
    let mut entry = Entry::unpack(word);
    match random.below(9) {
        0 => entry.n = *random.pick(&[0, 65, 255]),
        1 => entry.u = *random.pick(&[0, 513, 1023]),
        2 => entry.rest = 1 << random.below(9),
        3 => entry.v = FILE_BLOCKS + 1 - entry.n.min(FILE_BLOCKS),
        4 => entry.v = *random.pick(&[256, 65_535]),
        5 => entry.b = 0,
        6 => entry.b = blocks + 1 - entry.n.min(blocks),
        7 => entry.b = *random.pick(&[blocks, 65_535]),
        _ => return random.any() | 1,
    }
    entry.pack()
}

/// An entry that maps a free virtual block to a live block or a log block.
fn sharing_entry(random: &mut Random, forged: &Forged) -> Entry {
    let live: Vec<usize> =
        forged.table.iter().map(|&b| usize::from(b)).filter(|&b| b != 0).collect();
    let b = if live.is_empty() || random.once_in(2) {
        *random.pick(&forged.chain)
    } else {
        *random.pick(&live)
    };
    let v = (0..FILE_BLOCKS).rev().find(|&v| forged.table[v] == 0).unwrap_or(0);
    Entry { v, b, n: 1, u: random.between(1, 512), point: random.below(32), rest: 0 }
}

/// Sets a bit at or past the file's end in its last live block, if it can.
fn damage_end(random: &mut Random, image: &[u64], forged: &Forged) -> (usize, u64) {
    if forged.length % BLOCK_BYTES == 0 {
        return (0, image[0]);
    }
    let block = usize::from(forged.table[forged.length / BLOCK_BYTES]);
    let used = forged.length % BLOCK_BYTES;
    let any = random.between(used, BLOCK_BYTES - 1);
    let byte = *random.pick(&[used, BLOCK_BYTES - 1, any]);
    let place = place_of(block, byte / 8);
    (place, image[place] | 1 << (8 * (byte % 8) + random.below(8)))
}

/// A plan for an image of at most `most` blocks.
pub fn any_plan(random: &mut Random, most: usize) -> Plan {
    let blocks = match random.below(6) {
        0 => random.between(4, 8.min(most)),
        1 | 2 => random.between(4, 24.min(most)),
        3 => random.between(4, 100.min(most)),
        4 => most,
        _ => random.between(4, most),
    };
    // Chains of up to 64 log blocks, with at least one block beside them.
    let room = (blocks - 2).min(64);
    let full = match random.below(6) {
        0 => room.min(random.between(0, 64)),
        1 => room.min(*random.pick(&[61, 62, 63, 64])),
        _ => random.below(room.min(4)),
    };
    plan_with(random, blocks, full)
}

/// A plan with that many full log blocks.
pub fn plan_with(random: &mut Random, blocks: usize, full: usize) -> Plan {
    let has_room = full < 64 && full + 3 <= blocks;
    let more = if full == 0 {
        Some(random.below(62))
    } else if !has_room || random.once_in(4) {
        None
    } else {
        Some(match random.below(4) {
            0 => 0,
            1 => random.between(56, 61),
            _ => random.below(62),
        })
    };
    Plan {
        blocks,
        full,
        more,
        spare: *random.pick(&[0, 1, 2, 3, 5, 10, 40]),
        reach: *random.pick(&[3, 5, 12, 64, 256]),
        used: *random.pick(&[512, 512, 511, 300, 8]),
    }
}

/// Any entry of up to three blocks that keeps the rules.
pub fn lawful_entry(random: &mut Random, blocks: usize) -> u64 {
    let n = random.between(1, 3.min(blocks - 1));
    let entry = Entry {
        v: random.below(8),
        b: random.between(1, blocks - n),
        n,
        u: random.between(1, 512),
        point: random.below(32),
        rest: 0,
    };
    entry.pack()
}
