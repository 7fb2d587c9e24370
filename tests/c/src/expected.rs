//! What the calls of the header answer and leave, by the second
//! implementation: its records from the header's and back.

use std::convert::Infallible;

use second::calls;
use second::image::lay_out as second_lay_out;
use second::open::{open as second_open, show};
use second::reading;
use second::record::{self, Phase, Record};
use second::refusal::{refuse, Refusal};
use second::serve::{ask_list, row, Turn};
use second::step::{settle, step as second_step, Answer as StepAnswer};

use crate::c::*;

fn number(why: Refusal) -> u32 {
    why.number() as u32
}

/// The refusal, or 0.
fn refusal(done: Result<(), Refusal>) -> u32 {
    done.err().map_or(0, number)
}

fn shared_of(shared: &Shared) -> record::Shared {
    record::Shared {
        blocks: shared.blocks as usize,
        map: shared.taken,
        joined: shared.joined,
        chain: shared.chain as usize,
        reports: shared.reports.map(|block| block as usize),
    }
}

fn c_shared(shared: &record::Shared) -> Shared {
    Shared {
        blocks: shared.blocks as u32,
        joined: shared.joined,
        chain: shared.chain as u32,
        reports: shared.reports.map(|block| block as u32),
        taken: shared.map,
    }
}

/// The record of a call. A phase above 6 and a retry count above 65,535 are
/// no record's: it does not fit, and 10 comes first.
fn record_of(words: usize, shared: &Shared, point: &Point) -> Result<Record, Refusal> {
    let Point { head, table, text } = point;
    let (Some(phase), Ok(retries)) = (Phase::from_number(u64::from(head.phase)), u16::try_from(head.retries)) else {
        refuse(!shared_of(shared).is_fit(words), Refusal::SharedUnfit)?;
        return Err(Refusal::RecordUnfit);
    };
    Ok(Record {
        number: head.number as usize,
        view: record::View {
            table: *table,
            length: head.length as usize,
            block: head.block as usize,
            slot: head.slot as usize,
        },
        write: record::Write {
            offset: head.offset as usize,
            text: *text,
            text_length: head.size as usize,
            run: head.run as usize,
            phase,
            position: head.position as usize,
            zeroing: head.zeroing as usize,
            retries,
        },
    })
}

fn c_point(record: &Record) -> Point {
    let Record { number, view, write } = record;
    let head = Head {
        number: *number as u32,
        length: view.length as u32,
        block: view.block as u32,
        slot: view.slot as u32,
        offset: write.offset as u32,
        size: write.text_length as u32,
        run: write.run as u32,
        phase: write.phase.number() as u32,
        position: write.position as u32,
        zeroing: write.zeroing as u32,
        retries: u32::from(write.retries),
    };
    Point { head, table: view.table, text: write.text }
}

pub fn no_point() -> Point {
    c_point(&Record::zero())
}

pub fn no_shared() -> Shared {
    c_shared(&record::Shared::zero())
}

pub fn lay_out(image: &mut [u64]) -> u32 {
    refusal(second_lay_out(image))
}

/// Opening; a refused one answers a shared record and counts of zeros.
pub fn open(image: &[u64], scratch: &mut [u16], shared: &mut Shared) -> Opened {
    match second_open(image, scratch) {
        Ok(opened) => {
            *shared = c_shared(&opened.shared);
            Opened {
                refused: 0,
                length: opened.length as u32,
                entries: opened.entries as u32,
                free: opened.free as u32,
            }
        }
        Err(why) => {
            *shared = no_shared();
            Opened { refused: number(why), length: 0, entries: 0, free: 0 }
        }
    }
}

/// Listing: the rows are the table of the file, zeros where it is refused.
pub fn list(image: &[u64], scratch: &mut [u16], rows: &mut [u16]) -> Opened {
    let opened = open(image, scratch, &mut no_shared());
    rows.fill(0);
    if opened.refused == 0 {
        rows.copy_from_slice(&show(image).expect("an opened image").table);
    }
    opened
}

/// Joining; a refused one answers a record of zeros.
pub fn join(image: &[u64], shared: &mut Shared, number: u32, point: &mut Point) -> u32 {
    *point = no_point();
    refusal(calls::join(image, &shared_of(shared), number as usize).map(|(after, record)| {
        *shared = c_shared(&after);
        *point = c_point(&record);
    }))
}

pub fn begin(image: &[u64], shared: &mut Shared, point: &mut Point, offset: usize, bytes: &[u8]) -> u32 {
    let record = record_of(image.len(), shared, point);
    let begun = record.and_then(|record| calls::begin(image, &shared_of(shared), &record, offset, bytes));
    refusal(begun.map(|(after, record)| {
        *shared = c_shared(&after);
        *point = c_point(&record);
    }))
}

pub fn begin_read(image: &[u64], shared: &mut Shared, point: &mut Point, offset: usize, size: usize) -> u32 {
    let record = record_of(image.len(), shared, point);
    let begun = record.and_then(|record| reading::begin_read(image, &shared_of(shared), &record, offset, size));
    refusal(begun.map(|(after, record)| {
        *shared = c_shared(&after);
        *point = c_point(&record);
    }))
}

/// A step; a read's bytes come to the front of `bytes`.
pub fn step(image: &mut [u64], shared: &mut Shared, point: &mut Point, bytes: &mut [u8]) -> Answer {
    let record = match record_of(image.len(), shared, point) {
        Ok(record) => record,
        Err(why) => return Answer { kind: REFUSED, value: number(why), word: 0 },
    };
    let store = settle(image, &shared_of(shared), &record).ok().and_then(|settled| settled.store);
    let (answer, after, record) = second_step(image, &shared_of(shared), &record);
    *shared = c_shared(&after);
    *point = c_point(&record);
    let (kind, value) = match answer {
        StepAnswer::Stored => (STORED, 0),
        StepAnswer::Moved => (MOVED, 0),
        StepAnswer::Extending => (EXTENDING, 0),
        StepAnswer::Committed(retries) => (COMMITTED, u32::from(retries)),
        StepAnswer::Refused(why) => (REFUSED, number(why)),
        StepAnswer::Copied => (COPIED, 0),
        StepAnswer::Read(read) => {
            bytes[..read.len()].copy_from_slice(&read);
            (BYTES, read.len() as u32)
        }
    };
    Answer { kind, value, word: store.map_or(0, |(place, _)| place) }
}

/// Serving, by the second implementation's row. 26 is also where lists are
/// not equally long, or sizes and bytes differ.
pub fn serve(
    image: &mut [u64],
    shared: &mut Shared,
    points: &mut [Point],
    is_even: bool,
    answers: &mut [Served],
    writes: &[Write],
    bytes: &[u8],
) -> u32 {
    let sum = writes.iter().try_fold(0usize, |sum, write| sum.checked_add(write.size));
    if !is_even || sum != Some(bytes.len()) {
        return number(Refusal::BadList);
    }
    let numbers: Vec<usize> = points.iter().map(|point| point.head.number as usize).collect();
    if let Err(why) = ask_list(&numbers, writes.len()) {
        return number(why);
    }
    let start = |i: usize| writes[..i].iter().map(|write| write.size).sum::<usize>();
    let made: Result<_, Infallible> = row(points.len(), |turn| {
        let (i, answer) = match turn {
            Turn::Begin(i) => {
                let text = &bytes[start(i)..][..writes[i].size];
                match begin(image, shared, &mut points[i], writes[i].offset, text) {
                    0 => return Ok(None),
                    why => (i, Served { kind: REFUSED, value: why }),
                }
            }
            Turn::Step(i) => {
                let Answer { kind, value, .. } = step(image, shared, &mut points[i], &mut [0; 1_024]);
                (i, Served { kind, value })
            }
        };
        answers[i] = answer;
        // Only whether the write goes on matters to the row.
        Ok(Some(match answer.kind {
            COMMITTED => StepAnswer::Committed(0),
            REFUSED => StepAnswer::Refused(Refusal::NoRun),
            _ => StepAnswer::Stored,
        }))
    });
    made.map_or(0, |_| 0)
}

pub fn leave(image: &[u64], shared: &mut Shared, point: &Point) -> u32 {
    let record = record_of(image.len(), shared, point);
    let left = record.and_then(|record| calls::leave(image, &shared_of(shared), &record));
    refusal(left.map(|after| *shared = c_shared(&after)))
}

/// The count; 0 where it is refused.
fn count(answer: Result<usize, Refusal>) -> Count {
    match answer {
        Ok(count) => Count { refused: 0, count: count as u32 },
        Err(why) => Count { refused: number(why), count: 0 },
    }
}

pub fn read(image: &[u64], shared: &Shared, point: &Point, offset: usize, buffer: &mut [u8]) -> Count {
    let record = record_of(image.len(), shared, point);
    count(record.and_then(|record| calls::read(image, &shared_of(shared), &record, offset, buffer)))
}

pub fn locate(image: &[u64], shared: &Shared, point: &Point, block: usize) -> Count {
    let record = record_of(image.len(), shared, point);
    count(record.and_then(|record| calls::locate(image, &shared_of(shared), &record, block)))
}

/// How many log blocks a point is behind: those that come after its reported
/// block, as far as next indexes lead inside the image, and no more than the
/// chain has.
pub fn behind(image: &[u64], shared: &Shared, number: u32) -> u32 {
    if !shared_of(shared).has_joined(number as usize) {
        return 0;
    }
    let next = |&block: &u64| {
        let is_inside = block > 0 && block < u64::from(shared.blocks) && 64 * block < image.len() as u64;
        is_inside.then(|| image[64 * block as usize])
    };
    let from = u64::from(shared.reports[number as usize]);
    let after = std::iter::successors(Some(from), next).skip(1).take_while(|&block| block != 0);
    after.take(shared.chain.min(64) as usize).count() as u32
}

/// Where the part begins, if it is not empty.
pub fn view(image: &[u64], shared: &Shared, point: &Point, block: usize) -> Option<usize> {
    let record = record_of(image.len(), shared, point).ok()?;
    let part = calls::view(image, &shared_of(shared), &record, block);
    let place = (part.as_ptr() as usize - image.as_ptr() as usize) / 8;
    (!part.is_empty()).then_some(place)
}
