//! Document 01: joining, beginning, leaving, reading, locating, viewing. A
//! call that is refused leaves everything as handed in. Document 02, K4: "Every call
//! that joins, catches up for good, links or leaves" reports where the point stands.

use crate::image::*;
use crate::log::{catch_up, Broken, Caught};
use crate::map::{free_run, take_run};
use crate::record::*;
use crate::refusal::{refuse, Refusal};

impl From<Broken> for Refusal {
    fn from(_: Broken) -> Refusal {
        Refusal::LogBroken
    }
}

/// 10, 11 and 14, which every call with a point's record asks.
pub fn ask(image: &[u64], shared: &Shared, record: &Record) -> Result<(), Refusal> {
    refuse(!shared.is_fit(image.len()), Refusal::SharedUnfit)?;
    refuse(!record.fits(shared.blocks), Refusal::RecordUnfit)?;
    refuse(!shared.has_joined(record.number), Refusal::NotJoined)?;
    Ok(())
}

/// Joining: a new record, and the point is joined.
pub fn join(image: &[u64], shared: &Shared, number: usize) -> Result<(Shared, Record), Refusal> {
    refuse(!shared.is_fit(image.len()), Refusal::SharedUnfit)?;
    refuse(number > 31, Refusal::NoSuchPoint)?;
    refuse(shared.has_joined(number), Refusal::JoinedAlready)?;
    // "the first log index breaks 4"
    let first = image[1];
    refuse(first == 0 || first >= shared.blocks as u64, Refusal::LogBroken)?;
    let mut after = shared.clone();
    after.joined |= 1 << number;
    after.report(number, first as usize);
    Ok((after, Record::new(number, first as usize)))
}

/// "Beginning catches up, then takes a run of the 1 to 3 blocks that the
/// write spans."
pub fn begin(
    image: &[u64],
    shared: &Shared,
    record: &Record,
    offset: usize,
    text: &[u8],
) -> Result<(Shared, Record), Refusal> {
    ask(image, shared, record)?;
    refuse(!record.is_idle(), Refusal::WrongMoment)?;
    refuse(!Write::is_text_length(text.len()), Refusal::BadTextLength)?;
    refuse(!Write::is_inside(offset, text.len()), Refusal::PastTheEnd)?;
    let caught = catch_up(image, &record.view)?;
    let mut write = Write::idle();
    write.offset = offset;
    write.text[..text.len()].copy_from_slice(text);
    write.text_length = text.len();
    write.phase = Phase::Filling;
    let (run, mut after) = take_run(shared, write.span()).ok_or(Refusal::NoRun)?;
    write.run = run;
    after.report(record.number, caught.view.block);
    Ok((after, Record { number: record.number, view: caught.view, write }))
}

/// Frees what a point of this record holds.
pub fn free_held(shared: &mut Shared, write: &Write) {
    if write.holds_run() {
        free_run(shared, write.run, write.span());
    }
    if write.phase == Phase::Zeroing {
        shared.free(write.zeroing);
    }
}

/// "Leaving frees what the point holds and unjoins it; only the shared record
/// comes back."
pub fn leave(image: &[u64], shared: &Shared, record: &Record) -> Result<Shared, Refusal> {
    ask(image, shared, record)?;
    let mut after = shared.clone();
    free_held(&mut after, &record.write);
    after.joined &= !(1 << record.number);
    after.report(record.number, 0);
    Ok(after)
}

/// "A read fills a lent byte buffer from an offset with the lesser of its
/// length and the bytes left in the file, answers that count, and touches no
/// further byte."
pub fn read(
    image: &[u64],
    shared: &Shared,
    record: &Record,
    offset: usize,
    buffer: &mut [u8],
) -> Result<usize, Refusal> {
    ask(image, shared, record)?;
    let Caught { view, .. } = catch_up(image, &record.view)?;
    let count = buffer.len().min(view.length.saturating_sub(offset));
    for (i, byte) in buffer[..count].iter_mut().enumerate() {
        *byte = view.byte(image, offset + i);
    }
    Ok(count)
}

impl View {
    /// The byte as it is now, or 0 where nothing is mapped; below 131,072.
    pub fn byte(&self, image: &[u64], place: usize) -> u8 {
        match usize::from(self.table[place / BLOCK_BYTES]) {
            0 => 0,
            block => byte_of(image, block, place % BLOCK_BYTES),
        }
    }
}

/// "Locating answers a virtual block's logical index."
pub fn locate(image: &[u64], shared: &Shared, record: &Record, v: usize) -> Result<usize, Refusal> {
    ask(image, shared, record)?;
    refuse(v >= FILE_BLOCKS, Refusal::PastTheEnd)?;
    let caught = catch_up(image, &record.view)?;
    let block = usize::from(caught.view.table[v]);
    refuse(block == 0, Refusal::Unmapped)?;
    Ok(block)
}

/// "A view hands back the 64-word part of the lent image that begins at that
/// block, not a copy; the part is empty exactly when locating refuses."
pub fn view<'a>(image: &'a [u64], shared: &Shared, record: &Record, v: usize) -> &'a [u64] {
    match locate(image, shared, record, v) {
        Ok(block) => &image[place_of(block, 0)..place_of(block + 1, 0)],
        Err(_) => &image[0..0],
    }
}
