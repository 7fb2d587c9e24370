//! Document 02, K1, "Reading while the points write": a read taken in steps by
//! a point. None of them stores. K4: its beginning and its final step report.

use crate::calls::ask;
use crate::image::Entry;
use crate::log::{catch_up, Caught};
use crate::record::*;
use crate::refusal::{refuse, Refusal};
use crate::step::Answer;

impl Record {
    /// What the beginning of a read leaves: nothing is copied yet.
    fn reading(number: usize, view: View, offset: usize, text_length: usize) -> Record {
        let write = Write { offset, text_length, phase: Phase::Reading, ..Write::idle() };
        Record { number, view, write }
    }
}

/// Beginning "a read of 1 to 1,024 bytes": it catches up.
pub fn begin_read(
    image: &[u64],
    shared: &Shared,
    record: &Record,
    offset: usize,
    length: usize,
) -> Result<(Shared, Record), Refusal> {
    ask(image, shared, record)?;
    refuse(!record.is_idle(), Refusal::WrongMoment)?;
    refuse(!Write::is_text_length(length), Refusal::BadTextLength)?;
    refuse(!Write::is_inside(offset, length), Refusal::PastTheEnd)?;
    let caught = catch_up(image, &record.view)?;
    let mut after = shared.clone();
    after.report(record.number, caught.view.block);
    Ok((after, Record::reading(record.number, caught.view, offset, length)))
}

/// One step of a fitting record with a read under way: its answer and both
/// records then.
pub fn read_on(
    image: &[u64],
    shared: &Shared,
    record: &Record,
) -> Result<(Answer, Shared, Record), Refusal> {
    if record.write.position < record.write.range_words() {
        let (answer, after) = copy(image, record);
        return Ok((answer, shared.clone(), after));
    }
    let (answer, after) = end(image, record)?;
    let mut shared = shared.clone();
    shared.report(record.number, after.view.block);
    Ok((answer, shared, after))
}

/// "a step copies the next 8-byte word that the range touches, as its block is
/// now, ... into the record's text and answers Copied"
fn copy(image: &[u64], record: &Record) -> (Answer, Record) {
    let mut after = record.clone();
    for place in word_places(&record.write) {
        if let Some(i) = record.write.text_place(place) {
            after.write.text[i] = known_byte(image, &record.view, place);
        }
    }
    after.write.position += 1;
    (Answer::Copied, after)
}

/// The file's bytes in the next word to be copied, those outside the range too.
pub fn word_places(write: &Write) -> std::ops::Range<usize> {
    let word = write.offset / 8 + write.position;
    8 * word..8 * word + 8
}

/// The file's byte by the record's own length and table: "0 in a hole or past
/// the end".
pub fn known_byte(image: &[u64], view: &View, place: usize) -> u8 {
    if place < view.length {
        view.byte(image, place)
    } else {
        0
    }
}

/// "a final step catch[es] up": Moved, "and the copy begins again", or "it
/// answers the bytes and the point is idle".
fn end(image: &[u64], record: &Record) -> Result<(Answer, Record), Refusal> {
    let Caught { view, entries, .. } = catch_up(image, &record.view)?;
    let write = &record.write;
    if is_covered(write, &entries) || is_lengthened(record, &view) {
        let after = Record::reading(record.number, view, write.offset, write.text_length);
        return Ok((Answer::Moved, after));
    }
    let bytes = write.text[..write.text_length].to_vec();
    let after = Record { number: record.number, view, write: Write::idle() };
    Ok((Answer::Read(bytes), after))
}

/// "if entries the final step takes in cover a block of the range"
fn is_covered(write: &Write, entries: &[Entry]) -> bool {
    let mut blocks = write.first_block()..write.first_block() + write.span();
    blocks.any(|v| entries.iter().any(|entry| entry.covers(v)))
}

/// "or lengthen the file where the range passed its end"
fn is_lengthened(record: &Record, after: &View) -> bool {
    let before = record.view.length;
    after.length > before && record.write.end() > before
}
