//! What a read taken in steps meets: the situations in which wrong reads differ.

use crate::image::{Entry, BLOCK_BYTES, FILE_BYTES};
use crate::log::{catch_up, Broken, Caught};
use crate::reading::{known_byte, word_places};
use crate::record::*;
use crate::tally::happened;

/// The events of a beginning that is not refused.
pub fn begun_events(before: &Record, after: &Record) -> Vec<&'static str> {
    happened(&[
        (before.view != after.view, "read begun after catching up"),
        (before.write != Write::idle(), "read begun, write fields not 0"),
    ])
}

/// The events of a step that copies a word.
pub fn copied_events(image: &[u64], record: &Record, blocks: usize) -> Vec<&'static str> {
    let Record { view, write, .. } = record;
    let in_range = |place: &usize| write.text_place(*place).is_some();
    let places: Vec<usize> = word_places(write).filter(in_range).collect();
    let is_past = |place: usize| place >= view.length;
    let is_hole = |place: usize| !is_past(place) && view.table[place / BLOCK_BYTES] == 0;
    let is_dirty = |place: usize| is_past(place) && view.byte(image, place) != 0;
    let now = catch_up(image, view).map_or(view.clone(), |caught| caught.view);
    let is_other =
        |place: usize| known_byte(image, view, place) != known_byte(image, &now, place);
    let any = |is_so: &dyn Fn(usize) -> bool| places.iter().any(|&place| is_so(place));
    happened(&[
        (any(&is_hole), "copied in a hole"),
        (any(&is_past), "copied past the end"),
        (any(&is_dirty), "copied past the end, not 0 there"),
        (any(&|place| !is_past(place) && is_other(place)), "copied, other bytes there by now"),
        (any(&|place| is_past(place) && is_other(place)), "copied past the end, longer by now"),
        (places.len() < 8, "copied a part of a word"),
        (has_more(write), "copied, run, zeroing or retries not 0"),
        (write.run >= blocks, "copied, run outside the image"),
    ])
}

/// Whether fields that no read uses are not 0.
fn has_more(write: &Write) -> bool {
    write.run != 0 || write.zeroing != 0 || write.retries != 0
}

/// A final step: the record handed in, what it takes in, and what of the range
/// that touches.
struct Final<'a> {
    record: &'a Record,
    view: View,
    entries: Vec<Entry>,
    /// The covered blocks of the range, counted from its first.
    covered: Vec<usize>,
    is_longer: bool,
    has_passed: bool,
}

impl Final<'_> {
    /// None where the final step is refused.
    fn new<'a>(image: &[u64], record: &'a Record) -> Option<Final<'a>> {
        let Caught { view, entries, .. } = catch_up(image, &record.view).ok()?;
        let first = record.write.first_block();
        let is_covered = |i: &usize| entries.iter().any(|entry| entry.covers(first + i));
        let covered = (0..record.write.span()).filter(is_covered).collect();
        let is_longer = view.length > record.view.length;
        let has_passed = record.write.end() > record.view.length;
        Some(Final { record, view, entries, covered, is_longer, has_passed })
    }

    /// Whether that entry, if there is one, covers a block of the range.
    fn covers(&self, entry: Option<&Entry>) -> bool {
        let write = &self.record.write;
        let mut blocks = write.first_block()..write.first_block() + write.span();
        entry.is_some_and(|entry| blocks.any(|v| entry.covers(v)))
    }

    fn enters_a_block(&self) -> bool {
        self.view.block != self.record.view.block
    }

    /// Whether an entry covers a block of the range, and each that does is so.
    fn only_by(&self, is_so: impl Fn(&Entry) -> bool) -> bool {
        let is_covering = |entry: &&Entry| self.covers(Some(*entry));
        !self.covered.is_empty() && self.entries.iter().filter(is_covering).all(is_so)
    }

    /// Whether the range's end lies that far past the length before.
    fn passes_by(&self, bytes: usize) -> bool {
        self.record.write.end() == self.record.view.length + bytes
    }

    /// With Moved for its answer.
    fn moved(&self) -> Vec<&'static str> {
        let first_block = self.record.write.first_block();
        let last = self.record.write.span() - 1;
        let from_before = self.only_by(|entry| entry.v < first_block);
        let to_behind = self.only_by(|entry| entry.v + entry.n > first_block + last + 1);
        let only = |i: usize| self.covered == [i] && !self.is_longer;
        let newest = self.covers(self.entries.last());
        let oldest = self.covers(self.entries.first());
        let is_covered = !self.covered.is_empty();
        let only_longer = !is_covered && self.is_longer;
        happened(&[
            (only(0) && last == 0, "read moved, its one block covered"),
            (only(0) && last > 0, "read moved, only its first block covered"),
            (only(1) && last == 2, "read moved, only its middle block covered"),
            (only(last) && last > 0, "read moved, only its last block covered"),
            (is_covered && !newest && !self.is_longer, "read moved, not by the newest entry"),
            (is_covered && !oldest && !self.is_longer, "read moved, not by the oldest entry"),
            (from_before && !self.is_longer, "read moved, by an entry from before its first block"),
            (to_behind && !self.is_longer, "read moved, by an entry that goes past its last block"),
            (self.only_by(|entry| entry.n > 3), "read moved, by an entry of more than three blocks"),
            (only_longer, "read moved, only lengthened"),
            (
                only_longer && self.passes_by(1),
                "read moved, only lengthened, its last byte past the end",
            ),
            (is_covered && self.is_longer && self.has_passed, "read moved, covered and lengthened"),
            (self.enters_a_block(), "read moved into a next log block"),
            (has_more(&self.record.write), "read moved, run, zeroing or retries not 0"),
        ])
    }

    /// With the bytes for its answer.
    fn ended(&self, image: &[u64], bytes: &[u8]) -> Vec<&'static str> {
        let write = &self.record.write;
        let inside = self.is_longer && !self.has_passed;
        let others = !self.entries.is_empty() && !self.is_longer;
        let now = |i: usize| self.view.byte(image, write.offset + i);
        happened(&[
            (write.range_words() == 129, "read of 129 words"),
            (write.text_length == 1, "read of one byte"),
            (write.span() == 1, "read over one block"),
            (write.span() == 2, "read over two blocks"),
            (write.span() == 3, "read over three blocks"),
            (write.end() == FILE_BYTES, "read up to byte 131,072"),
            (write.offset >= self.view.length, "read wholly past the end"),
            (inside, "read ended, lengthened but its range inside"),
            (inside && self.passes_by(0), "read ended, lengthened from its end on"),
            (others && !self.has_passed, "read ended, other blocks covered"),
            (others && self.has_passed, "read ended past the end, other blocks covered"),
            (self.enters_a_block(), "read ended in a next log block"),
            (has_more(write), "read ended, run, zeroing or retries not 0"),
            (
                (0..bytes.len()).any(|i| write.offset + i < self.view.length && bytes[i] != now(i)),
                "read ended, what was copied is there no more",
            ),
        ])
    }
}

/// The events of a final step that answers Moved.
pub fn read_moved_events(image: &[u64], record: &Record) -> Vec<&'static str> {
    Final::new(image, record).map_or(Vec::new(), |step| step.moved())
}

/// The events of a final step that answers these bytes.
pub fn ended_events(image: &[u64], record: &Record, bytes: &[u8]) -> Vec<&'static str> {
    Final::new(image, record).map_or(Vec::new(), |step| step.ended(image, bytes))
}

/// The event of a final step that is refused by 18, but for a circle.
pub fn broken_read_events(image: &[u64], record: &Record) -> Vec<&'static str> {
    let why = catch_up(image, &record.view).err();
    happened(&[
        (why == Some(Broken::Entry), "18 in a read's final step, by an entry"),
        (why == Some(Broken::Next), "18 in a read's final step, by a next index"),
    ])
}

/// The events of a record with a read under way that does not fit.
pub fn unfit_events(record: &Record, blocks: usize) -> Vec<&'static str> {
    if record.write.phase != Phase::Reading {
        return Vec::new();
    }
    let fits_with = |position: usize, offset: usize, text_length: usize| {
        let write = Write { position, offset, text_length, ..record.write.clone() };
        Record { write, ..record.clone() }.fits(blocks)
    };
    let Write { position, offset, text_length, .. } = record.write;
    let less = position.saturating_sub(1);
    happened(&[
        (fits_with(less, offset, text_length), "11 by a read's position, one too high"),
        (fits_with(0, offset, text_length), "11 by a read's position"),
        (fits_with(0, 0, text_length), "11 by a read's offset"),
        (fits_with(0, offset, 1), "11 by a read's text length"),
    ])
}

/// The event of a beginning that finds something under way.
pub fn busy_events(record: &Record, begins_read: bool) -> Vec<&'static str> {
    let is_reading = record.write.phase == Phase::Reading;
    happened(&[
        (begins_read && is_reading, "15 for a read while reading"),
        (begins_read && !is_reading, "15 for a read while writing"),
        (!begins_read && is_reading, "15 for a write while reading"),
    ])
}

/// The events of a leaving while reading.
pub fn left_events(shared: &Shared, record: &Record) -> Vec<&'static str> {
    let write = &record.write;
    if write.phase != Phase::Reading {
        return Vec::new();
    }
    let is_taken = |block: usize| block >= 1 && block < shared.blocks && shared.is_taken(block);
    happened(&[
        (true, "left while reading"),
        (is_taken(write.run), "left while reading, a taken block for its run"),
        (is_taken(write.zeroing), "left while reading, a taken block for its zeroing"),
    ])
}

