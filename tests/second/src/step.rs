//! Document 01, "A write, step by step": one step. It first settles, with the
//! image lent for reading only, which word gets which value, if any. A step of a
//! read is in `reading`.

use crate::calls::{ask, free_held};
use crate::image::*;
use crate::log::{catch_up, Caught};
use crate::map::take_run;
use crate::reading::read_on;
use crate::record::*;
use crate::refusal::{refuse, Refusal};

/// What a step answers.
#[derive(Clone, Debug, PartialEq, Eq)]
pub enum Answer {
    Stored,
    Extending,
    Moved,
    /// With the retry count.
    Committed(u16),
    Copied,
    /// With the bytes of a read's range.
    Read(Vec<u8>),
    Refused(Refusal),
}

/// What a step answers and leaves, and its one store: place and value.
#[derive(Clone, Debug, PartialEq, Eq)]
pub struct Settled {
    pub answer: Answer,
    pub shared: Shared,
    pub record: Record,
    pub store: Option<(usize, u64)>,
}

impl Settled {
    /// A step that stores nothing.
    fn plain(answer: Answer, shared: Shared, record: Record) -> Settled {
        Settled { answer, shared, record, store: None }
    }

    /// A storing step.
    fn storing(
        answer: Answer,
        shared: Shared,
        record: Record,
        place: usize,
        value: u64,
    ) -> Settled {
        Settled { answer, shared, record, store: Some((place, value)) }
    }
}

/// One step of the record's point.
pub fn step(image: &mut [u64], shared: &Shared, record: &Record) -> (Answer, Shared, Record) {
    let settled = match settle(image, shared, record) {
        Ok(settled) => settled,
        Err(why) => Settled::plain(Answer::Refused(why), shared.clone(), record.clone()),
    };
    if let Some((place, value)) = settled.store {
        image[place] = value;
    }
    (settled.answer, settled.shared, settled.record)
}

/// 10, 11, 14, 15, then what the phase does.
pub fn settle(image: &[u64], shared: &Shared, record: &Record) -> Result<Settled, Refusal> {
    ask(image, shared, record)?;
    refuse(record.is_idle(), Refusal::WrongMoment)?;
    if record.write.phase == Phase::Reading {
        let (answer, shared, after) = read_on(image, shared, record)?;
        return Ok(Settled::plain(answer, shared, after));
    }
    if record.write.phase == Phase::Zeroing {
        return Ok(zero(image, shared, record));
    }
    match next_word(&record.write) {
        Some(w) => Ok(fill(image, shared, record, w)),
        None => commit(image, shared, record),
    }
}

/// Whether word w of the run lies in a block that the phase refills. "A run
/// of one block is a first block and never a last."
fn is_refilled(write: &Write, w: usize) -> bool {
    let first = w < BLOCK_WORDS;
    let last = write.span() > 1 && w >= write.run_words() - BLOCK_WORDS;
    match write.phase {
        Phase::RefillingFirst => first,
        Phase::RefillingLast => last,
        Phase::RefillingBoth => first || last,
        _ => false,
    }
}

/// The next word to fill or to fill again, ascending, if any is left.
fn next_word(write: &Write) -> Option<usize> {
    (write.position..write.run_words()).find(|&w| {
        write.phase == Phase::Filling || (is_refilled(write, w) && write.has_copied(w))
    })
}

/// "Bytes of the write come from its text; the others are copied from the
/// mapped block as it is now, or are 0."
fn run_word(image: &[u64], record: &Record, w: usize) -> u64 {
    let mut word = 0;
    for j in 0..8 {
        let place = record.write.file_byte(w, j);
        let byte = match record.write.text_place(place) {
            Some(i) => record.write.text[i],
            None => record.view.byte(image, place),
        };
        word |= u64::from(byte) << (8 * j);
    }
    word
}

/// "Filling: one word of the run, ascending."
fn fill(image: &[u64], shared: &Shared, record: &Record, w: usize) -> Settled {
    let mut after = record.clone();
    after.write.position = w + 1;
    let place = place_of(record.write.run, w);
    let value = run_word(image, record, w);
    Settled::storing(Answer::Stored, shared.clone(), after, place, value)
}

/// The three ways of committing.
fn commit(image: &[u64], shared: &Shared, record: &Record) -> Result<Settled, Refusal> {
    let view = &record.view;
    if view.slot < END_SLOT && word_of(image, view.block, view.slot) == 0 {
        return Ok(store_entry(shared, record));
    }
    if view.slot == END_SLOT && word_of(image, view.block, 0) == 0 {
        return Ok(extend(shared, record));
    }
    move_on(image, shared, record)
}

/// "store the entry; answer Committed with the retry count; the record takes
/// the entry in, blocks replaced become free and the point is idle"
fn store_entry(shared: &Shared, record: &Record) -> Settled {
    let entry = record.write.entry(record.number);
    let mut shared = shared.clone();
    for v in entry.v..entry.v + entry.n {
        let replaced = usize::from(record.view.table[v]);
        if replaced != 0 {
            shared.free(replaced);
        }
    }
    let mut after = record.clone();
    after.view.take_in(&entry);
    after.view.slot += 1;
    after.write = Write::idle();
    let place = place_of(record.view.block, record.view.slot);
    let answer = Answer::Committed(record.write.retries);
    Settled::storing(answer, shared, after, place, entry.pack())
}

/// "at slot 64 with no next index: take one block by the same search; answer
/// Extending", or 20, or 21.
fn extend(shared: &Shared, record: &Record) -> Settled {
    if shared.is_chain_full() {
        return give_up(shared, record, Refusal::LogFull);
    }
    match take_run(shared, 1) {
        None => give_up(shared, record, Refusal::NoLogBlock),
        Some((block, shared)) => {
            let mut after = record.clone();
            after.write.phase = Phase::Zeroing;
            after.write.position = 0;
            after.write.zeroing = block;
            Settled::plain(Answer::Extending, shared, after)
        }
    }
}

/// "20 and 21 end the write: its run is free, the point idle and caught up."
/// 20 at the link "frees a zeroed block" too.
fn give_up(shared: &Shared, record: &Record, why: Refusal) -> Settled {
    let mut shared = shared.clone();
    free_held(&mut shared, &record.write);
    let mut after = record.clone();
    after.write = Write::idle();
    Settled::plain(Answer::Refused(why), shared, after)
}

/// "Committing, otherwise: catch up, store nothing, answer Moved."
fn move_on(image: &[u64], shared: &Shared, record: &Record) -> Result<Settled, Refusal> {
    let caught = catch_up(image, &record.view)?;
    let mut after = record.clone();
    after.write.retries = record.write.retries.saturating_add(1);
    after.write.phase = refilling(&record.write, &caught);
    after.write.position = match after.write.phase {
        Phase::Filling => record.write.run_words(),
        _ => 0,
    };
    after.view = caught.view;
    let mut shared = shared.clone();
    shared.report(record.number, after.view.block);
    Ok(Settled::plain(Answer::Moved, shared, after))
}

/// "If a new entry covers edge blocks, their words with at least one copied
/// byte are filled again": the phase after a Moved.
fn refilling(write: &Write, caught: &Caught) -> Phase {
    let covered = |i: usize| {
        let v = write.first_block() + i;
        caught.entries.iter().any(|entry| entry.covers(v))
    };
    let is_edge = |i: usize| (64 * i..64 * i + 64).any(|w| write.has_copied(w));
    let last = write.span() - 1;
    let first_again = is_edge(0) && covered(0);
    let last_again = last > 0 && is_edge(last) && covered(last);
    match (first_again, last_again) {
        (false, false) => Phase::Filling,
        (true, false) => Phase::RefillingFirst,
        (false, true) => Phase::RefillingLast,
        (true, true) => Phase::RefillingBoth,
    }
}

/// "Then 64 steps zero it, and one stores its index as next".
fn zero(image: &[u64], shared: &Shared, record: &Record) -> Settled {
    if record.write.position < BLOCK_WORDS {
        let mut after = record.clone();
        after.write.position += 1;
        let place = place_of(record.write.zeroing, record.write.position);
        return Settled::storing(Answer::Stored, shared.clone(), after, place, 0);
    }
    end_zeroing(image, shared, record)
}

/// The link, or 20. Where a next index is there "the block is given back", and the
/// chain length is not looked at.
fn end_zeroing(image: &[u64], shared: &Shared, record: &Record) -> Settled {
    match (word_of(image, record.view.block, 0), shared.is_chain_full()) {
        (0, true) => give_up(shared, record, Refusal::LogFull),
        (0, false) => link(shared, record),
        _ => lose_link(shared, record),
    }
}

/// The record, done with zeroing: "committing goes on".
fn zeroed(record: &Record) -> Record {
    let mut after = record.clone();
    after.write.zeroing = 0;
    after.write.phase = Phase::Filling;
    after.write.position = record.write.run_words();
    after
}

/// "stores its index as next and moves the log place to its slot 2"
fn link(shared: &Shared, record: &Record) -> Settled {
    let block = record.write.zeroing;
    let mut after = zeroed(record);
    after.view.block = block;
    after.view.slot = FIRST_SLOT;
    let mut shared = shared.clone();
    shared.chain += 1;
    shared.report(record.number, block);
    let place = place_of(record.view.block, 0);
    Settled::storing(Answer::Stored, shared, after, place, block as u64)
}

/// "If a next index is there by then, the block is given back, nothing is
/// stored or caught up, the answer is Moved and committing goes on."
fn lose_link(shared: &Shared, record: &Record) -> Settled {
    let mut shared = shared.clone();
    shared.free(record.write.zeroing);
    let mut after = zeroed(record);
    after.write.retries = after.write.retries.saturating_add(1);
    Settled::plain(Answer::Moved, shared, after)
}
