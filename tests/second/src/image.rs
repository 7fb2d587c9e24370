//! Document 01, "The image": words, blocks, entries, laying out.

use crate::refusal::{refuse, Refusal};

/// "word 0 is 0x4D494C4B31"
pub const MARK: u64 = 0x4D494C4B31;
/// "A block is 64 words, 512 bytes."
pub const BLOCK_WORDS: usize = 64;
pub const BLOCK_BYTES: usize = 512;
/// "virtual blocks 0 to 255, so it ends at byte 131,072 at most"
pub const FILE_BLOCKS: usize = 256;
pub const FILE_BYTES: usize = 131_072;
/// "An image has 4 to 1,024 blocks."
pub const MOST_BLOCKS: usize = 1_024;
/// "At most 64 log blocks are chained."
pub const MOST_LOG_BLOCKS: usize = 64;
/// "words 2 to 63 are 62 entries"
pub const FIRST_SLOT: usize = 2;
pub const END_SLOT: usize = 64;

/// "An image has 4 to 1,024 blocks."
pub fn is_block_count(count: usize) -> bool {
    (4..=MOST_BLOCKS).contains(&count)
}

/// Not refusal 1: a multiple of 64 words that is 4 to 1,024 blocks.
pub fn is_size(words: usize) -> bool {
    words % BLOCK_WORDS == 0 && is_block_count(words / BLOCK_WORDS)
}

/// The block count B of an image.
pub fn block_count(image: &[u64]) -> usize {
    image.len() / BLOCK_WORDS
}

/// Where a block's word lies in the image.
pub fn place_of(block: usize, word: usize) -> usize {
    BLOCK_WORDS * block + word
}

/// A block's word.
pub fn word_of(image: &[u64], block: usize, word: usize) -> u64 {
    image[place_of(block, word)]
}

/// A block's byte: "byte j of a word is its bits 8j to 8j+7".
pub fn byte_of(image: &[u64], block: usize, byte: usize) -> u8 {
    let shift = 8 * (byte % 8);
    ((word_of(image, block, byte / 8) >> shift) & 0xFF) as u8
}

/// "An entry", unpacked.
#[derive(Clone, Copy, Debug, PartialEq, Eq)]
pub struct Entry {
    /// First virtual block.
    pub v: usize,
    /// First logical block.
    pub b: usize,
    /// Count of blocks.
    pub n: usize,
    /// Used bytes of the last block.
    pub u: usize,
    /// Point number.
    pub point: usize,
    /// Bits 55 to 63.
    pub rest: usize,
}

impl Entry {
    /// "bits 0 to 15 ...; bits 16 to 31 ...; bits 32 to 39 ...; bits 40 to 49
    /// ...; bits 50 to 54 ...; bits 55 to 63"
    pub fn unpack(word: u64) -> Entry {
        Entry {
            v: (word & 0xFFFF) as usize,
            b: ((word >> 16) & 0xFFFF) as usize,
            n: ((word >> 32) & 0xFF) as usize,
            u: ((word >> 40) & 0x3FF) as usize,
            point: ((word >> 50) & 0x1F) as usize,
            rest: (word >> 55) as usize,
        }
    }

    /// The word of an entry whose fields keep their widths.
    pub fn pack(&self) -> u64 {
        (self.v as u64 & 0xFFFF)
            | (self.b as u64 & 0xFFFF) << 16
            | (self.n as u64 & 0xFF) << 32
            | (self.u as u64 & 0x3FF) << 40
            | (self.point as u64 & 0x1F) << 50
            | (self.rest as u64 & 0x1FF) << 55
    }

    /// The entry's rules in an image of `blocks` blocks.
    pub fn keeps_rules(&self, blocks: usize) -> bool {
        (1..=64).contains(&self.n)
            && (1..=BLOCK_BYTES).contains(&self.u)
            && self.rest == 0
            && self.v + self.n <= FILE_BLOCKS
            && self.b >= 1
            && self.b + self.n <= blocks
    }

    /// "512 × (v+n−1) + u", for an entry that keeps the rules.
    pub fn end(&self) -> usize {
        BLOCK_BYTES * (self.v + self.n - 1) + self.u
    }

    /// Whether the entry maps virtual block v.
    pub fn covers(&self, v: usize) -> bool {
        self.v <= v && v < self.v + self.n
    }
}

/// "Laying out writes the superblock, with first log block 1, and zeroes
/// block 1; other blocks are not touched."
pub fn lay_out(image: &mut [u64]) -> Result<(), Refusal> {
    refuse(!is_size(image.len()), Refusal::BadSize)?;
    image[..2 * BLOCK_WORDS].fill(0);
    image[0] = MARK;
    image[1] = 1;
    Ok(())
}
