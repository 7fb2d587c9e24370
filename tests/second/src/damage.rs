//! Images for the inspector: honest ones, and ones with damages of each rule of its page.

use crate::digest::noise;
use crate::forge::{forge, lawful_entry, Plan};
use crate::image::*;
use crate::images::bytes_of;
use crate::random::Random;
use crate::sound::{any_sound, assemble, entry, long_entries, without_free_blocks, Sound};

/// Which one of several things in a row.
#[derive(Clone, Copy, Debug, PartialEq, Eq)]
pub enum Spot {
    First,
    Middle,
    Last,
    /// Counted round and round.
    At(usize),
}

pub const SPOTS: [Spot; 3] = [Spot::First, Spot::Middle, Spot::Last];

impl Spot {
    pub fn of<T: Copy>(self, row: &[T]) -> T {
        match self {
            Spot::First => row[0],
            Spot::Middle => row[row.len() / 2],
            Spot::Last => row[row.len() - 1],
            Spot::At(i) => row[i % row.len()],
        }
    }

    fn any(random: &mut Random) -> Spot {
        if random.once_in(2) {
            *random.pick(&SPOTS)
        } else {
            Spot::At(random.below(4_096))
        }
    }
}

/// Number and rule of the page from 3 on.
pub const DAMAGES: [(usize, usize); 20] = [
    (3, 1),
    (3, 2),
    (4, 1),
    (4, 2),
    (5, 1),
    (5, 2),
    (6, 1),
    (6, 2),
    (6, 3),
    (7, 1),
    (7, 2),
    (7, 3),
    (7, 4),
    (7, 5),
    (7, 6),
    (7, 7),
    (7, 8),
    (8, 1),
    (8, 2),
    (9, 1),
];

/// An image, sound at first, with damages.
pub struct Damaged<'a> {
    pub sound: &'a Sound,
    pub image: Vec<u64>,
}

impl Damaged<'_> {
    pub fn new(sound: &Sound) -> Damaged<'_> {
        Damaged { sound, image: sound.image.clone() }
    }

    /// A damage that, alone, most likely breaks this rule first. The spots say where; what
    /// they choose among depends on the rule.
    pub fn damage(&mut self, random: &mut Random, rule: (usize, usize), one: Spot, other: Spot) {
        let chain = &self.sound.chain;
        let some = random.any() | 1 << random.below(64);
        match rule {
            (3, 1) => self.image[0] ^= 1 << one.of(&[0, 20, 63]),
            (3, 2) => self.image[one.of(&[2, 30, 63])] = some,
            (4, 1) => self.image[1] = 0,
            (4, 2) => {
                let links: Vec<usize> = [1].into_iter().chain(chain.iter().map(|&block| 64 * block)).collect();
                let place = one.of(&links[..links.len().min(MOST_LOG_BLOCKS)]);
                self.image[place] = self.outside(random);
            }
            (5, 1) => {
                let i = one.of(&(0..chain.len()).collect::<Vec<_>>());
                self.image[64 * chain[i]] = other.of(&chain[..=i]) as u64;
            }
            (5, 2) => self.chain_more(random),
            (6, 1) => self.image[place_of(one.of(chain), 1)] = some,
            (6, 2) => self.leave_a_gap(random, one.of(chain), other),
            (6, 3) => self.link_too_early(random, one.of(chain)),
            (7, which) => {
                let places = self.sound.entries_in(&[one.of(chain)]);
                let place = if places.is_empty() { place_of(one.of(chain), 2) } else { other.of(&places) };
                self.image[place] = broken_entry(random, self.image[place], self.sound.blocks(), which);
            }
            (8, which) => self.map_wrongly(random, which, one, other),
            _ => self.spoil_the_end(random, one),
        }
    }

    /// An index that is not below the block count; its low part may be.
    fn outside(&self, random: &mut Random) -> u64 {
        let blocks = self.sound.blocks() as u64;
        *random.pick(&[blocks, blocks, blocks + 1, 65_536, (1 << 32) + 1, (1 << 63) + 2, u64::MAX])
    }

    /// Chains on, over other blocks, to 64 log blocks and one more index; in a small image,
    /// back to one of them.
    fn chain_more(&mut self, random: &mut Random) {
        let mut blocks = self.sound.chain.clone();
        blocks.extend((1..self.sound.blocks()).filter(|block| !self.sound.chain.contains(block)));
        let next = match blocks.get(MOST_LOG_BLOCKS) {
            Some(&next) if random.once_in(2) => next as u64,
            _ => self.outside(random),
        };
        blocks.truncate(MOST_LOG_BLOCKS);
        for two in blocks.windows(2) {
            self.image[64 * two[0]] = two[1] as u64;
        }
        let is_long = blocks.len() == MOST_LOG_BLOCKS;
        self.image[64 * blocks[blocks.len() - 1]] = if is_long { next } else { *random.pick(&blocks) as u64 };
    }

    /// An empty slot before an entry.
    fn leave_a_gap(&mut self, random: &mut Random, block: usize, spot: Spot) {
        let places = self.sound.entries_in(&[block]);
        if places.len() >= 2 && (places.len() > 60 || random.once_in(2)) {
            self.image[spot.of(&places[..places.len() - 1])] = 0;
        } else {
            let after: Vec<usize> = (FIRST_SLOT + places.len() + 1..END_SLOT).collect();
            let lawful = lawful_entry(random, self.sound.blocks());
            let word = *random.pick(&[1, lawful]);
            self.image[place_of(block, spot.of(&after))] = word;
        }
    }

    /// A next index though the last slot is empty.
    fn link_too_early(&mut self, random: &mut Random, block: usize) {
        let from = if random.once_in(2) { END_SLOT - 1 } else { random.between(FIRST_SLOT, END_SLOT - 1) };
        self.image[place_of(block, from)..place_of(block, END_SLOT)].fill(0);
        if self.image[64 * block] == 0 {
            let free = self.sound.free();
            let next = if free.is_empty() { 1 } else { *random.pick(&free) };
            self.image[place_of(next, 0)..place_of(next, END_SLOT)].fill(0);
            self.image[64 * block] = next as u64;
        }
    }

    /// An entry that maps a virtual block to a log block, or to one that is live already. It
    /// stands at a spot of the log, or behind it; no later entry maps that virtual block.
    fn map_wrongly(&mut self, random: &mut Random, which: usize, one: Spot, other: Spot) {
        let log = self.sound.log();
        let room = self.sound.empty_slots();
        let place = match (log.is_empty(), room.first()) {
            (true, _) => place_of(self.sound.chain[0], FIRST_SLOT),
            (false, Some(&tail)) if one == Spot::Last => tail,
            _ => one.of(&log),
        };
        let later: Vec<Entry> = log.iter().rev().take_while(|&&at| at != place).map(|&at| self.at(at)).collect();
        let open: Vec<usize> = (0..FILE_BLOCKS).filter(|&v| !later.iter().any(|entry| entry.covers(v))).collect();
        if open.is_empty() {
            return;
        }
        let v = other.of(&open);
        let live: Vec<u16> = (0..FILE_BLOCKS).filter(|&w| w != v).map(|w| self.sound.table[w]).collect();
        let live: Vec<u16> = live.into_iter().filter(|&block| block != 0).collect();
        let block = match which {
            2 if !live.is_empty() => usize::from(*random.pick(&live)),
            _ => *random.pick(&self.sound.chain),
        };
        // As part of a longer entry, now and then.
        let before = if random.once_in(3) { random.below(64.min(v + 1).min(block)) } else { 0 };
        let u = random.between(1, BLOCK_BYTES);
        self.image[place] = entry(v - before, block - before, before + 1, u).pack();
    }

    fn at(&self, place: usize) -> Entry {
        Entry::unpack(self.image[place])
    }

    /// A byte at or past the file's end, if its last block has one.
    fn spoil_the_end(&mut self, random: &mut Random, spot: Spot) {
        let past: Vec<usize> = (self.sound.length..self.sound.length.next_multiple_of(BLOCK_BYTES)).collect();
        if past.is_empty() {
            return;
        }
        let byte = spot.of(&past);
        let block = usize::from(self.sound.table[byte / BLOCK_BYTES]);
        let bits = random.between(1, 255) as u64;
        self.image[place_of(block, byte % BLOCK_BYTES / 8)] |= bits << (8 * (byte % 8));
    }

    fn bytes(&self) -> Vec<u8> {
        bytes_of(&self.image)
    }
}

/// The word with this rule of 7 broken and none before it; now and then some after it too.
pub fn broken_entry(random: &mut Random, word: u64, blocks: usize, which: usize) -> u64 {
    let mut entry = Entry::unpack(if word == 0 { 0x0002_0001_0001_0000 } else { word });
    let mut broken = vec![which];
    if random.once_in(3) {
        broken.extend((which + 1..=8).filter(|_| random.once_in(2)));
    }
    let v_past = FILE_BLOCKS + 1 - entry.n.min(FILE_BLOCKS);
    let b_past = (blocks + 1).saturating_sub(entry.n).max(1);
    for &which in &broken {
        match which {
            1 => entry.n = 0,
            2 if entry.n != 0 => entry.n = *random.pick(&[65, 66, 128, 255]),
            3 => entry.u = 0,
            4 if entry.u != 0 => entry.u = *random.pick(&[513, 514, 768, 1_023]),
            5 => entry.rest = 1 << *random.pick(&[0, 1, 4, 8]),
            6 => entry.v = *random.pick(&[v_past, v_past, 256, 512, 65_535]),
            7 => entry.b = 0,
            8 if entry.b != 0 => entry.b = *random.pick(&[b_past, b_past, blocks, 65_535]),
            _ => {}
        }
    }
    entry.pack()
}

/// The images of fixed shapes that the systematic damages are put into.
fn bases(random: &mut Random) -> Vec<Sound> {
    let plan = |blocks, full, more, reach, used| Plan { blocks, full, more, spare: 2, reach, used };
    let plans = [
        plan(4, 0, Some(2), 1, 300),
        plan(16, 2, Some(5), 5, 300),
        plan(40, 3, None, 12, 511),
        plan(90, 63, Some(30), 12, 300),
        plan(140, 64, None, 40, 300),
        plan(1_024, 4, Some(10), 256, 300),
    ];
    let mut bases: Vec<Sound> = plans.iter().map(|&plan| Sound::of(&forge(random, plan))).collect();
    bases.push(without_free_blocks(random, 60, 1));
    bases.push(assemble(8, &[5], &[], Some(7)));
    bases
}

/// What is always compared: every rule at every spot, and what is near to it.
pub fn systematic() -> Vec<Vec<u8>> {
    let mut random = Random::new(9);
    let random = &mut random;
    let mut list = sizes();
    let bases = bases(random);
    for sound in &bases {
        list.push(bytes_of(&sound.image));
        for rule in DAMAGES {
            // Of a large image not each pair of spots.
            let large = sound.blocks() > 200;
            for (one, other) in spots_of(rule).into_iter().filter(|(one, other)| !large || one == other) {
                let mut damaged = Damaged::new(sound);
                damaged.damage(random, rule, one, other);
                list.push(damaged.bytes());
            }
        }
    }
    for sound in &bases[1..3] {
        list.extend(pairs(random, sound));
    }
    list.extend((0..4).map(|_| bytes_of(&long_entries(random).image)));
    list.extend(live_scenes());
    list.extend(long_chains());
    list
}

/// The spots that make a difference for a rule.
fn spots_of(rule: (usize, usize)) -> Vec<(Spot, Spot)> {
    let ones = SPOTS.map(|one| (one, one)).to_vec();
    match rule {
        (4, 1) => ones[..1].to_vec(),
        (5, 1) | (6, 2) | (7, _) | (8, _) => {
            SPOTS.iter().flat_map(|&one| SPOTS.map(|other| (one, other))).collect()
        }
        _ => ones,
    }
}

/// Two damages in one image, of each two rules: the first in order counts.
fn pairs(random: &mut Random, sound: &Sound) -> Vec<Vec<u8>> {
    let mut list = Vec::new();
    for (i, &rule) in DAMAGES.iter().enumerate() {
        for &later in &DAMAGES[i..] {
            let mut damaged = Damaged::new(sound);
            let (spot, other) = (Spot::any(random), Spot::any(random));
            damaged.damage(random, later, Spot::First, other);
            damaged.damage(random, rule, spot, Spot::Middle);
            list.push(damaged.bytes());
        }
    }
    list
}

/// Inputs of wrong sizes, and right ones of zeros beside them.
fn sizes() -> Vec<Vec<u8>> {
    let most = MOST_BLOCKS * BLOCK_BYTES;
    let few = [0, 1, 7, 8, 13, 504, 511, 512, 513, 520, 1_024, 1_536, 1_544, 2_040, 2_047, 2_048, 2_049, 2_056, 2_552];
    let many = [most - 512, most - 8, most - 1, most, most + 1, most + 8, most + 512, most + 70_000];
    let mut list: Vec<Vec<u8>> = few.iter().chain(&many).map(|&bytes| vec![0; bytes]).collect();
    // Behind a whole image: a part of a word, of a block, or one block too many.
    let sound = bytes_of(&assemble(MOST_BLOCKS, &[1], &[], None).image);
    for more in [1, 7, 8, 256, 512] {
        list.push([sound.as_slice(), &vec![0; more]].concat());
        list.push(sound[..sound.len() - more].to_vec());
    }
    list
}

/// Three full log blocks. One entry, at many places of the log, maps a low, middle or high
/// virtual block to a log block, or to one that virtual block 0 has. Before it stand an
/// entry that does the same and one that overrules that.
fn live_scenes() -> Vec<Vec<u8>> {
    let chain = [3, 7, 5];
    let mut list = Vec::new();
    for x in [0, 1, 127, 254, 255] {
        for at in [0, 1, 30, 61, 62, 93, 123, 124, 150, 185] {
            let wrong = [entry(x, chain[at % 3], 1, 512), entry(x, 10, 1, 512)];
            for bad in wrong {
                let mut log: Vec<Entry> = (0..186).map(|j| filler(j, x)).collect();
                if at >= 2 {
                    log[at / 2] = entry(x, 20, 1, 512);
                    log[at / 2 - 1] = bad;
                }
                log[at] = bad;
                list.push(bytes_of(&assemble(40, &chain, &log, Some(3)).image));
                // As the middle of a longer entry, and overruled at last.
                let long = entry(x.clamp(1, 254) - 1, bad.b.max(2) - 1, 3, 512);
                log[at] = long;
                list.push(bytes_of(&assemble(40, &chain, &log, Some(4)).image));
                log[185] = entry(long.v, 30, 3, 512);
                list.push(bytes_of(&assemble(40, &chain, &log, Some(5)).image));
            }
        }
    }
    // Both rules in one table, either one lower.
    for (x, y) in [(1, 200), (200, 1), (254, 255), (255, 254)] {
        let log = [entry(x, 3, 1, 512), entry(y, 10, 1, 512), entry(0, 10, 1, 512)];
        list.push(bytes_of(&assemble(40, &chain[..1], &log, Some(6)).image));
    }
    list
}

/// Virtual blocks 0 and 2 to 5 in blocks 10 to 15, but for one.
fn filler(j: usize, but: usize) -> Entry {
    let v = [0, 2, 3, 4, 5][j % 5];
    if v == but {
        entry(9, 19, 1, 512)
    } else {
        entry(v, 10 + v, 1, 512)
    }
}

/// 62 to 66 different log blocks, each full; the last index 0, outside, or back.
fn long_chains() -> Vec<Vec<u8>> {
    let mut list = Vec::new();
    for count in 62..=66 {
        let chain: Vec<usize> = (0..count).map(|i| 1 + (9 * i) % 71).collect();
        let log: Vec<Entry> = (0..62 * count).map(|j| entry(j % 4, 72 + j % 4, 1, 512)).collect();
        let sound = assemble(80, &chain, &log, None);
        for next in [0, 80, 1, chain[count / 2], chain[count - 1], 78] {
            let mut image = sound.image.clone();
            image[64 * chain[count - 1]] = next as u64;
            list.push(bytes_of(&image));
        }
    }
    list
}

/// A random input of one of several kinds.
pub fn make(mut random: Random, index: usize) -> Vec<u8> {
    let random = &mut random;
    match index % 20 {
        0..=4 => bytes_of(&any_sound(random).image),
        5..=11 => damaged(random, 1),
        12 | 13 => damaged(random, 2),
        14 => damaged(random, 3),
        15 => flipped(random),
        16 => other_words(random),
        17 => behind_a_superblock(random),
        18 => log_blocks_everywhere(random),
        _ => wrong_size(random),
    }
}

fn damaged(random: &mut Random, times: usize) -> Vec<u8> {
    let sound = any_sound(random);
    let mut damaged = Damaged::new(&sound);
    for _ in 0..times {
        let rule = *random.pick(&DAMAGES);
        let (one, other) = (Spot::any(random), Spot::any(random));
        damaged.damage(random, rule, one, other);
    }
    damaged.bytes()
}

/// A word of the superblock's front, of the log, or of all.
fn any_place(random: &mut Random, sound: &Sound) -> usize {
    let log_block = *random.pick(&sound.chain);
    match random.below(4) {
        0 => random.below(4),
        1 => place_of(log_block, random.below(64)),
        2 => {
            let entries = sound.entries_in(&[log_block]);
            *random.pick(if entries.is_empty() { &[1] } else { entries.as_slice() })
        }
        _ => random.below(sound.image.len()),
    }
}

fn flipped(random: &mut Random) -> Vec<u8> {
    let mut sound = any_sound(random);
    for _ in 0..random.between(1, 3) {
        let place = any_place(random, &sound);
        sound.image[place] ^= 1 << random.below(64);
    }
    bytes_of(&sound.image)
}

/// Words put in the place of others: zeros, small numbers, entries, words of the image.
fn other_words(random: &mut Random) -> Vec<u8> {
    let mut sound = any_sound(random);
    for _ in 0..random.between(1, 4) {
        let place = any_place(random, &sound);
        sound.image[place] = match random.below(5) {
            0 => 0,
            1 => random.below(sound.blocks() + 2) as u64,
            2 => lawful_entry(random, sound.blocks()),
            3 => sound.image[any_place(random, &sound)],
            _ => random.any(),
        };
    }
    bytes_of(&sound.image)
}

fn behind_a_superblock(random: &mut Random) -> Vec<u8> {
    let blocks = *random.pick(&[4, 7, 30, 64, 128, 500, 1_024]);
    let mut image = vec![0; BLOCK_WORDS * blocks];
    noise(&mut image, random.any());
    image[..BLOCK_WORDS].fill(0);
    image[0] = MARK;
    image[1] = random.between(1, blocks - 1) as u64;
    bytes_of(&image)
}

/// Each block a log block, most of them full and lawful, with an index of another.
fn log_blocks_everywhere(random: &mut Random) -> Vec<u8> {
    let blocks = random.between(4, 128);
    let mut image = vec![0; BLOCK_WORDS * blocks];
    let far = *random.pick(&[1, blocks, blocks + 1]);
    for block in 1..blocks {
        // The next one in order, or any: such chains soon come back.
        let next = if far == 1 { (block + 1) % blocks } else { random.below(far) };
        image[64 * block] = next as u64;
        for slot in FIRST_SLOT..END_SLOT {
            image[place_of(block, slot)] = lawful_entry(random, blocks);
        }
        if random.once_in(2 * blocks) {
            image[place_of(block, random.between(1, 63))] = random.below(3) as u64;
        }
    }
    image[0] = MARK;
    image[1] = random.between(1, blocks - 1) as u64;
    bytes_of(&image)
}

fn wrong_size(random: &mut Random) -> Vec<u8> {
    let mut bytes = bytes_of(&any_sound(random).image);
    match random.below(6) {
        0 => bytes.truncate(bytes.len() - random.between(1, 7)),
        1 => bytes.extend(vec![0; random.between(1, 7)]),
        2 => bytes.truncate(bytes.len() - 8 * random.between(1, 63)),
        3 => bytes.truncate(512 * random.below(4)),
        4 => bytes.truncate(random.below(2_048)),
        _ => bytes.resize(MOST_BLOCKS * BLOCK_BYTES + random.between(1, 2_000), 0),
    }
    bytes
}
