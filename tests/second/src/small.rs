//! Document 02, K9: every small log, found by opening all that a grid of entries
//! gives.

use crate::image::{lay_out, place_of, Entry, BLOCK_BYTES, BLOCK_WORDS, FIRST_SLOT};
use crate::open::{open, Opened};
use crate::refusal::Refusal;

/// "a laid-out 4-block image"
pub const BLOCKS: usize = 4;
/// "at most two plain entries"
const MOST_ENTRIES: usize = 2;

/// The grid: values in, at and past the ranges of each field.
const V: [usize; 5] = [0, 1, 2, 3, 65_535];
const B: [usize; 7] = [0, 1, 2, 3, 4, 5, 65_535];
const N: [usize; 6] = [0, 1, 2, 3, 4, 255];
const U: [usize; 5] = [0, 1, 511, 512, 513];
const POINT: [usize; 3] = [0, 1, 31];
const REST: [usize; 4] = [0, 1, 2, 256];

/// All entries of the grid.
fn grid() -> Vec<Entry> {
    let none = vec![Entry { v: 0, b: 0, n: 0, u: 0, point: 0, rest: 0 }];
    let entries = with_each(none, &V, |entry, v| Entry { v, ..entry });
    let entries = with_each(entries, &B, |entry, b| Entry { b, ..entry });
    let entries = with_each(entries, &N, |entry, n| Entry { n, ..entry });
    let entries = with_each(entries, &U, |entry, u| Entry { u, ..entry });
    let entries = with_each(entries, &POINT, |entry, point| Entry { point, ..entry });
    with_each(entries, &REST, |entry, rest| Entry { rest, ..entry })
}

/// The entries with each of the values in one field.
fn with_each(entries: Vec<Entry>, values: &[usize], set: fn(Entry, usize) -> Entry) -> Vec<Entry> {
    entries.iter().flat_map(|&entry| values.iter().map(move |&value| set(entry, value))).collect()
}

/// "virtual blocks 0 and 1 only, used bytes 512, point 0"; all else is opening's
/// to judge.
pub fn is_of_the_kind(entry: &Entry) -> bool {
    let mut covered = entry.v..entry.v + entry.n;
    covered.all(|v| v <= 1) && entry.u == BLOCK_BYTES && entry.point == 0
}

/// The image of this log: "laid-out", "with all-zero data blocks".
pub fn image_of(log: &[u64]) -> Vec<u64> {
    let mut image = vec![0; BLOCK_WORDS * BLOCKS];
    lay_out(&mut image).expect("a fit size");
    let tail = place_of(1, FIRST_SLOT);
    image[tail..tail + log.len()].copy_from_slice(log);
    image
}

/// "Legal means that opening accepts."
pub fn judge(log: &[u64]) -> Result<Opened, Refusal> {
    open(&image_of(log), &mut [0; 1024])
}

/// All logs of entries of the kind, some of them more than once: twice over, each
/// log so far with one entry more.
fn candidates() -> Vec<Vec<u64>> {
    let entries = grid().into_iter().filter(is_of_the_kind);
    let words: Vec<u64> = entries.map(|entry| entry.pack()).collect();
    let mut logs = vec![Vec::new()];
    for _ in 0..MOST_ENTRIES {
        for log in logs.clone() {
            logs.extend(words.iter().map(|&word| [log.as_slice(), &[word]].concat()));
        }
    }
    logs
}

/// "shortest first, then by the first entry and then the second as whole numbers,
/// ascending, each once"
pub fn legal_logs() -> Vec<Vec<u64>> {
    let mut logs = candidates();
    logs.retain(|log| judge(log).is_ok());
    logs.sort_by_key(|log| (log.len(), log.clone()));
    logs.dedup();
    logs
}

/// "each entry as 16 hexadecimal digits, a blank between two, an empty line for the
/// empty log"
pub fn line_of(log: &[u64]) -> String {
    let entries: Vec<String> = log.iter().map(|word| format!("{word:016X}")).collect();
    entries.join(" ")
}

/// What the program prints: "one log a line".
pub fn smalllogs() -> String {
    legal_logs().iter().map(|log| line_of(log) + "\n").collect()
}
