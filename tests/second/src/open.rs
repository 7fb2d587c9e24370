//! Document 01: the chain, replay, opening.

use crate::image::*;
use crate::record::Shared;
use crate::refusal::{refuse, Refusal};

/// What opening answers.
#[derive(Clone, Debug, PartialEq, Eq)]
pub struct Opened {
    pub length: usize,
    pub entries: usize,
    pub free: usize,
    pub shared: Shared,
}

/// The file that an accepted image shows.
#[derive(Clone, Debug, PartialEq, Eq)]
pub struct Shown {
    /// The log blocks in order.
    pub chain: Vec<usize>,
    /// The log's entry words in order.
    pub log: Vec<u64>,
    /// Logical block of each virtual block, 0 where nothing is mapped.
    pub table: [u16; 256],
    pub length: usize,
}

/// "the superblock has a wrong mark or a word after word 1 that is not 0"
fn is_superblock(image: &[u64]) -> bool {
    image[0] == MARK && image[2..BLOCK_WORDS].iter().all(|&word| word == 0)
}

/// The log blocks in order, or refusal 4 or 5.
pub fn chain_of(image: &[u64]) -> Result<Vec<usize>, Refusal> {
    let mut chain = Vec::new();
    let mut index = image[1];
    refuse(index == 0, Refusal::BadLogIndex)?;
    // "one of the first 64 indexes of the chain is not below the block count"
    while index != 0 && chain.len() < MOST_LOG_BLOCKS {
        refuse(index >= block_count(image) as u64, Refusal::BadLogIndex)?;
        chain.push(index as usize);
        index = word_of(image, index as usize, 0);
    }
    // "the chain has not ended after 64 log blocks"
    refuse(index != 0, Refusal::EndlessChain)?;
    Ok(chain)
}

/// A log block's 62 entry words.
fn entry_words(image: &[u64], block: usize) -> &[u64] {
    &image[place_of(block, FIRST_SLOT)..place_of(block, END_SLOT)]
}

/// Not refusal 6, for one log block.
pub fn is_log_block(image: &[u64], block: usize) -> bool {
    let entries = entry_words(image, block);
    let full = entries.iter().all(|&word| word != 0);
    word_of(image, block, 1) == 0
        && !entries.windows(2).any(|pair| pair[0] == 0 && pair[1] != 0)
        && (word_of(image, block, 0) == 0 || full)
}

/// The log's entry words in log order.
pub fn log_of(image: &[u64], chain: &[usize]) -> Vec<u64> {
    chain
        .iter()
        .flat_map(|&block| entry_words(image, block))
        .copied()
        .filter(|&word| word != 0)
        .collect()
}

/// "entries in log order map v+i to b+i for i below n; a later entry
/// overrules an earlier"
pub fn replay(log: &[u64]) -> [u16; 256] {
    let mut table = [0; 256];
    for entry in log.iter().map(|&word| Entry::unpack(word)) {
        for i in 0..entry.n {
            table[entry.v + i] = (entry.b + i) as u16;
        }
    }
    table
}

/// "The file's length is the greatest 512 × (v+n−1) + u, or 0 for an empty
/// log."
pub fn length_of(log: &[u64]) -> usize {
    log.iter().map(|&word| Entry::unpack(word).end()).max().unwrap_or(0)
}

/// Not refusal 8: each live block is live once and no log block.
fn is_live_once(table: &[u16; 256], chain: &[usize]) -> bool {
    let mut seen = vec![false; MOST_BLOCKS];
    for &block in chain {
        seen[block] = true;
    }
    for &block in table.iter().filter(|&&block| block != 0) {
        if seen[usize::from(block)] {
            return false;
        }
        seen[usize::from(block)] = true;
    }
    true
}

/// Not refusal 9: no byte at or past the file's end in its last live block.
fn is_end_clean(image: &[u64], shown: &Shown) -> bool {
    if shown.length == 0 {
        return true;
    }
    let last = usize::from(shown.table[(shown.length - 1) / BLOCK_BYTES]);
    let used = (shown.length - 1) % BLOCK_BYTES + 1;
    (used..BLOCK_BYTES).all(|byte| byte_of(image, last, byte) == 0)
}

/// Refusals 3 to 9 of an image of a fit size, and the file shown.
pub fn show(image: &[u64]) -> Result<Shown, Refusal> {
    let blocks = block_count(image);
    refuse(!is_superblock(image), Refusal::BadSuperblock)?;
    let chain = chain_of(image)?;
    refuse(!chain.iter().all(|&block| is_log_block(image, block)), Refusal::BadLogBlock)?;
    let log = log_of(image, &chain);
    let lawful = |word: &u64| Entry::unpack(*word).keeps_rules(blocks);
    refuse(!log.iter().all(lawful), Refusal::BadEntry)?;
    let table = replay(&log);
    let length = length_of(&log);
    refuse(!is_live_once(&table, &chain), Refusal::LiveBlockShared)?;
    let shown = Shown { chain, log, table, length };
    refuse(!is_end_clean(image, &shown), Refusal::DirtyEnd)?;
    Ok(shown)
}

impl Shown {
    /// "A byte below that length is its block's byte, or 0 where nothing is
    /// mapped."
    pub fn byte(&self, image: &[u64], place: usize) -> u8 {
        match usize::from(self.table[place / BLOCK_BYTES]) {
            0 => 0,
            block => byte_of(image, block, place % BLOCK_BYTES),
        }
    }

    /// The whole file.
    pub fn file(&self, image: &[u64]) -> Vec<u8> {
        (0..self.length).map(|place| self.byte(image, place)).collect()
    }

    /// Virtual and logical index of each live block, ascending.
    pub fn live(&self) -> Vec<(usize, usize)> {
        (0..FILE_BLOCKS)
            .map(|v| (v, usize::from(self.table[v])))
            .filter(|&(_, block)| block != 0)
            .collect()
    }

    /// "65,535 for block 0 and log blocks, one more than the virtual block
    /// for a live block, else 0"
    fn marks(&self) -> Vec<u16> {
        let mut marks = vec![0; MOST_BLOCKS];
        for (v, block) in self.live() {
            marks[block] = v as u16 + 1;
        }
        for &block in &self.chain {
            marks[block] = 65_535;
        }
        marks[0] = 65_535;
        marks
    }
}

/// Opening: the counts and the shared record; the scratch is left as document
/// 01 says.
pub fn open(image: &[u64], scratch: &mut [u16]) -> Result<Opened, Refusal> {
    refuse(!is_size(image.len()), Refusal::BadSize)?;
    refuse(scratch.len() < MOST_BLOCKS, Refusal::ShortScratch)?;
    let shown = match show(image) {
        Ok(shown) => shown,
        Err(why) => {
            // "after 8 and 9 its first 1,024 places are 0"
            if why >= Refusal::LiveBlockShared {
                scratch[..MOST_BLOCKS].fill(0);
            }
            return Err(why);
        }
    };
    let marks = shown.marks();
    scratch[..MOST_BLOCKS].copy_from_slice(&marks);
    let (blocks, chain) = (block_count(image), shown.chain.len());
    let mut shared = Shared { blocks, chain, ..Shared::zero() };
    for block in (0..MOST_BLOCKS).filter(|&block| marks[block] != 0) {
        shared.take(block);
    }
    Ok(Opened {
        length: shown.length,
        entries: shown.log.len(),
        free: shared.count_free(),
        shared,
    })
}
