//! Document 01, "The opened file": the shared record and the points' records.
//! Document 02, K2: "The next place goes from the shared record and from 10." K1: a
//! read under way stands in the write's fields. K4: the shared record says where each
//! point stands, and "the log blocks passed go from the point's record and from 11".

use crate::image::*;

/// "a shared record: block count; a map of taken blocks, one bit each in
/// 64-bit words; the joined points"
#[derive(Clone, Debug, PartialEq, Eq)]
pub struct Shared {
    pub blocks: usize,
    pub map: [u64; 16],
    /// Bit p for point p.
    pub joined: u32,
    /// "the length of the chain"
    pub chain: usize,
    /// "for each of the 32 points, the log block of its log place, 0 when not joined"
    pub reports: [usize; 32],
}

impl Shared {
    /// What a refused opening answers.
    pub fn zero() -> Shared {
        Shared { blocks: 0, map: [0; 16], joined: 0, chain: 0, reports: [0; 32] }
    }

    /// Not refusal 10 with an image of that many words.
    pub fn is_fit(&self, words: usize) -> bool {
        is_block_count(self.blocks)
            && BLOCK_WORDS * self.blocks == words
            && self.reports.iter().all(|&block| block < self.blocks)
            && (1..=MOST_LOG_BLOCKS).contains(&self.chain)
    }

    /// The point's log place is in that block from now on; 0 where it is not joined.
    pub fn report(&mut self, number: usize, block: usize) {
        self.reports[number] = block;
    }

    /// What 20 reads: "a chain length of 64".
    pub fn is_chain_full(&self) -> bool {
        self.chain == MOST_LOG_BLOCKS
    }

    /// A number above 31 is never joined.
    pub fn has_joined(&self, number: usize) -> bool {
        number <= 31 && self.joined >> number & 1 == 1
    }

    pub fn is_taken(&self, block: usize) -> bool {
        self.map[block / 64] >> (block % 64) & 1 == 1
    }

    pub fn take(&mut self, block: usize) {
        self.map[block / 64] |= 1 << (block % 64);
    }

    pub fn free(&mut self, block: usize) {
        self.map[block / 64] &= !(1 << (block % 64));
    }

    /// "the free count is taken from the map words by counting ones"; for a
    /// record that opening answered.
    pub fn count_free(&self) -> usize {
        let ones: u32 = self.map.iter().map(|word| word.count_ones()).sum();
        self.blocks - ones as usize
    }
}

/// Phases. Committing is what a step does in filling or refilling when no
/// word is left.
#[derive(Clone, Copy, Debug, PartialEq, Eq)]
pub enum Phase {
    Idle = 0,
    Filling = 1,
    RefillingFirst = 2,
    RefillingLast = 3,
    RefillingBoth = 4,
    Zeroing = 5,
    Reading = 6,
}

impl Phase {
    pub fn number(self) -> u64 {
        self as u64
    }

    pub fn from_number(number: u64) -> Option<Phase> {
        match number {
            0 => Some(Phase::Idle),
            1 => Some(Phase::Filling),
            2 => Some(Phase::RefillingFirst),
            3 => Some(Phase::RefillingLast),
            4 => Some(Phase::RefillingBoth),
            5 => Some(Phase::Zeroing),
            6 => Some(Phase::Reading),
            _ => None,
        }
    }
}

/// What a point has seen of the log: "a block table of 256 logical indexes,
/// the file length, its log place".
#[derive(Clone, Debug, PartialEq, Eq)]
pub struct View {
    pub table: [u16; 256],
    pub length: usize,
    pub block: usize,
    pub slot: usize,
}

/// "its write: offset, up to 1,024 bytes of text, first block of its run,
/// phase, position, log block being zeroed, retry count". Of a read: its range,
/// what has been copied, phase and how many words have been copied.
#[derive(Clone, Debug, PartialEq, Eq)]
pub struct Write {
    pub offset: usize,
    pub text: [u8; 1024],
    pub text_length: usize,
    pub run: usize,
    pub phase: Phase,
    pub position: usize,
    pub zeroing: usize,
    pub retries: u16,
}

impl Write {
    /// "New or turned idle, its write fields are 0."
    pub fn idle() -> Write {
        Write {
            offset: 0,
            text: [0; 1024],
            text_length: 0,
            run: 0,
            phase: Phase::Idle,
            position: 0,
            zeroing: 0,
            retries: 0,
        }
    }

    /// A write under way. "It holds no block" is said of a read.
    pub fn holds_run(&self) -> bool {
        !matches!(self.phase, Phase::Idle | Phase::Reading)
    }

    /// 16: "the text has 0 or more than 1,024 bytes".
    pub fn is_text_length(length: usize) -> bool {
        (1..=1_024).contains(&length)
    }

    /// Not 17: the write ends at byte 131,072 at most; `length` obeys 16.
    pub fn is_inside(offset: usize, length: usize) -> bool {
        offset <= FILE_BYTES - length
    }

    /// First virtual block, for a write that obeys 16 and 17.
    pub fn first_block(&self) -> usize {
        self.offset / BLOCK_BYTES
    }

    /// "the 1 to 3 blocks that the write spans"
    pub fn span(&self) -> usize {
        (self.end() - 1) / BLOCK_BYTES - self.first_block() + 1
    }

    pub fn end(&self) -> usize {
        self.offset + self.text_length
    }

    pub fn run_words(&self) -> usize {
        BLOCK_WORDS * self.span()
    }

    /// How many 8-byte words of the file "the range touches": up to 129.
    pub fn range_words(&self) -> usize {
        (self.end() - 1) / 8 - self.offset / 8 + 1
    }

    /// "A write's u is the bytes from its last block's start to its end."
    pub fn used(&self) -> usize {
        (self.end() - 1) % BLOCK_BYTES + 1
    }

    /// The byte's place in the text, where it comes from the text.
    pub fn text_place(&self, file_byte: usize) -> Option<usize> {
        if file_byte >= self.offset && file_byte < self.end() {
            Some(file_byte - self.offset)
        } else {
            None
        }
    }

    /// The file's byte at byte j of the run's word w.
    pub fn file_byte(&self, w: usize, j: usize) -> usize {
        BLOCK_BYTES * self.first_block() + 8 * w + j
    }

    /// "their words with at least one copied byte": not all from the text.
    pub fn has_copied(&self, w: usize) -> bool {
        (0..8).any(|j| self.text_place(self.file_byte(w, j)).is_none())
    }

    /// The entry that the commit stores.
    pub fn entry(&self, point: usize) -> Entry {
        Entry {
            v: self.first_block(),
            b: self.run,
            n: self.span(),
            u: self.used(),
            point,
            rest: 0,
        }
    }
}

/// A point's record.
#[derive(Clone, Debug, PartialEq, Eq)]
pub struct Record {
    pub number: usize,
    pub view: View,
    pub write: Write,
}

impl Record {
    /// What a refused joining answers.
    pub fn zero() -> Record {
        let view = View { table: [0; 256], length: 0, block: 0, slot: 0 };
        Record { number: 0, view, write: Write::idle() }
    }

    /// "A new record is idle with length 0, its log place at slot 2 of the
    /// first log block"
    pub fn new(number: usize, first_log_block: usize) -> Record {
        let mut record = Record::zero();
        record.number = number;
        record.view.block = first_log_block;
        record.view.slot = FIRST_SLOT;
        record
    }

    pub fn is_idle(&self) -> bool {
        self.write.phase == Phase::Idle
    }

    /// "A record fits when ..." in an image of `blocks` blocks.
    pub fn fits(&self, blocks: usize) -> bool {
        self.view.fits(blocks) && (self.is_idle() || self.write.fits(blocks, &self.view))
    }
}

impl View {
    /// "its log place keeps these ranges with a block from 1 on, that block
    /// and each table entry lie inside the image, and the length is at most
    /// 131,072"
    fn fits(&self, blocks: usize) -> bool {
        (1..blocks).contains(&self.block)
            && (FIRST_SLOT..=END_SLOT).contains(&self.slot)
            && self.table.iter().all(|&b| usize::from(b) < blocks)
            && self.length <= FILE_BYTES
    }
}

impl Write {
    /// "With a write under way, ..."; of a read: the range and the position.
    fn fits(&self, blocks: usize, view: &View) -> bool {
        Write::is_text_length(self.text_length)
            && Write::is_inside(self.offset, self.text_length)
            && (!self.holds_run() || self.run_fits(blocks))
            && self.position_fits(blocks, view)
    }

    /// "run ... also lie[s] inside from block 1 on"
    fn run_fits(&self, blocks: usize) -> bool {
        self.run >= 1 && self.run <= blocks - self.span()
    }

    /// "the position is at most the run's words, or 64 in zeroing, which
    /// needs slot 64"; in reading "position at most the touched words"
    fn position_fits(&self, blocks: usize, view: &View) -> bool {
        match self.phase {
            Phase::Zeroing => {
                (1..blocks).contains(&self.zeroing)
                    && self.position <= BLOCK_WORDS
                    && view.slot == END_SLOT
            }
            Phase::Reading => self.position <= self.range_words(),
            _ => self.position <= self.run_words(),
        }
    }
}
