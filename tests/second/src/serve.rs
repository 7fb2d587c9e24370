//! Document 02, K6, "Everybody gets a turn": one call that serves all points. It is a
//! row of beginnings and steps; who makes them, and looks at them, is lent in.

use crate::calls::begin;
use crate::record::{Record, Shared};
use crate::refusal::{refuse, Refusal};
use crate::step::{step, Answer};

/// "a list of 1 to 32"
pub const MOST_POINTS: usize = 32;

/// A part of the row: of the point at that place of the list.
#[derive(Clone, Copy, Debug, PartialEq, Eq)]
pub enum Turn {
    Begin(usize),
    Step(usize),
}

/// 26 and 27, "both before 10 and with nothing begun", for the numbers in the listed
/// records and the count of writes.
pub fn ask_list(numbers: &[usize], writes: usize) -> Result<(), Refusal> {
    let count = numbers.len();
    refuse(count == 0 || count > MOST_POINTS || writes != count, Refusal::BadList)?;
    refuse((1..count).any(|i| numbers[..i].contains(&numbers[i])), Refusal::ListedTwice)?;
    Ok(())
}

/// "at most 129 × (n−1) + 260 rounds with n points"
pub fn most_rounds(count: usize) -> usize {
    129 * (count - 1) + 260
}

/// Whether the point gets a step in the next round; `None` where it has only begun.
fn is_unfinished(last: &Option<Answer>) -> bool {
    !matches!(last, Some(Answer::Committed(_) | Answer::Refused(_)))
}

/// "It begins all writes in list order, then gives each unfinished one a step a round":
/// makes each turn and answers what each point's last one answered. A beginning that is
/// not refused answers `None`: a step follows it. An error of a turn ends the row.
pub fn row<E>(
    count: usize,
    mut make: impl FnMut(Turn) -> Result<Option<Answer>, E>,
) -> Result<Vec<Answer>, E> {
    let mut last = vec![None; count];
    for i in 0..count {
        last[i] = make(Turn::Begin(i))?;
    }
    for _ in 0..most_rounds(count) {
        if !last.iter().any(is_unfinished) {
            break;
        }
        for i in 0..count {
            if is_unfinished(&last[i]) {
                last[i] = make(Turn::Step(i))?;
            }
        }
    }
    Ok(last.into_iter().flatten().collect())
}

/// A turn of a record, with its write for the beginning: what it answered and both records
/// then.
pub fn take_turn(
    turn: Turn,
    image: &mut [u64],
    shared: &Shared,
    record: &Record,
    (offset, text): &(usize, Vec<u8>),
) -> (Option<Answer>, Shared, Record) {
    if let Turn::Step(_) = turn {
        let (answer, shared, after) = step(image, shared, record);
        return (Some(answer), shared, after);
    }
    match begin(image, shared, record, *offset, text) {
        Ok((shared, after)) => (None, shared, after),
        Err(why) => (Some(Answer::Refused(why)), shared.clone(), record.clone()),
    }
}
