//! Document 01: catching up, "applies all entries from the log place to the
//! tail, passing into next blocks". Document 02, K4, sets the limit of the blocks.

use crate::image::*;
use crate::record::View;

/// Why catching up meets refusal 18.
#[derive(Clone, Copy, Debug, PartialEq, Eq)]
pub enum Broken {
    /// "an entry up to the first empty word breaks 7"
    Entry,
    /// "a next index is not below the block count"
    Next,
    /// "entering more log blocks than the image has blocks"
    TooLong,
}

/// A view at the tail, the entries that brought it there and the count of log
/// blocks that were entered on the way.
#[derive(Clone, Debug, PartialEq, Eq)]
pub struct Caught {
    pub view: View,
    pub entries: Vec<Entry>,
    pub entered: usize,
}

/// Whether the view moved on by one entry or one log block, or is at the tail.
enum Moved {
    Entry(Entry),
    Block,
    Tail,
}

impl View {
    /// The entry's blocks and end go into table and length.
    pub fn take_in(&mut self, entry: &Entry) {
        for i in 0..entry.n {
            self.table[entry.v + i] = (entry.b + i) as u16;
        }
        self.length = self.length.max(entry.end());
    }

    /// One move along the log of a view that fits.
    fn advance(&mut self, image: &[u64]) -> Result<Moved, Broken> {
        if self.slot < END_SLOT {
            self.pass_entry(word_of(image, self.block, self.slot), block_count(image))
        } else {
            self.pass_block(word_of(image, self.block, 0), block_count(image))
        }
    }

    fn pass_entry(&mut self, word: u64, blocks: usize) -> Result<Moved, Broken> {
        if word == 0 {
            return Ok(Moved::Tail);
        }
        let entry = Entry::unpack(word);
        if !entry.keeps_rules(blocks) {
            return Err(Broken::Entry);
        }
        self.take_in(&entry);
        self.slot += 1;
        Ok(Moved::Entry(entry))
    }

    fn pass_block(&mut self, next: u64, blocks: usize) -> Result<Moved, Broken> {
        if next == 0 {
            return Ok(Moved::Tail);
        }
        if next >= blocks as u64 {
            return Err(Broken::Next);
        }
        self.block = next as usize;
        self.slot = FIRST_SLOT;
        Ok(Moved::Block)
    }
}

/// Catches a fitting view up with the image's log.
pub fn catch_up(image: &[u64], view: &View) -> Result<Caught, Broken> {
    let mut view = view.clone();
    let mut entries = Vec::new();
    let mut entered = 0;
    while entered <= block_count(image) {
        match view.advance(image)? {
            Moved::Entry(entry) => entries.push(entry),
            Moved::Block => entered += 1,
            Moved::Tail => return Ok(Caught { view, entries, entered }),
        }
    }
    Err(Broken::TooLong)
}
