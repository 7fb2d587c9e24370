//! What is measured: one column of the tables.

use std::time::Duration;

/// The log of an image of 1,024 blocks holds 64 × 62 entries.
pub const LOG_ENTRIES: usize = 3_968;
/// Writers write each to a place of its own in the file, this far apart.
pub const APART: usize = 4_096;
pub const MOST_WRITERS: usize = 32;

/// One way of keeping readings.
pub trait Column {
    fn name(&self) -> &'static str;

    /// What holds after a power loss.
    fn promise(&self) -> &'static str;

    /// Nothing written, and that many writers. Not timed.
    fn fresh(&mut self, writers: usize);

    /// In each round the text is altered and every writer makes one committed
    /// write of it, taking turns. At most 3,968 writes after `fresh`.
    fn rounds(&mut self, times: usize, text: &mut [u8]);

    /// Bytes stored since `fresh`, where they can be counted.
    fn bytes_stored(&self) -> Option<u64>;

    /// `fresh`, and that many committed writes, left for `open`. Not timed.
    fn keep(&mut self, entries: usize);

    /// The time of opening what `keep` left, that many times; closing is not
    /// timed. None where there is nothing to open.
    fn open(&mut self, times: usize) -> Option<Duration>;

    /// Reads the first writer's bytes, that many times.
    fn read(&mut self, times: usize, buffer: &mut [u8]);

    /// The same in steps, between which others could write; at once where there
    /// are no steps.
    fn read_in_steps(&mut self, times: usize, buffer: &mut [u8]) {
        self.read(times, buffer)
    }
}

/// Where 1 kB is read to, on a cache line of its own wherever it is put.
#[repr(align(64))]
pub struct Buffer(pub [u8; 1_024]);

/// A text of that many bytes, none of them 0.
pub fn text_of(size: usize) -> Vec<u8> {
    (0..size).map(|i| (i % 255) as u8 + 1).collect()
}

/// Another text than before: a count in the first eight bytes. SQLite writes
/// nothing where a row stays as it was.
pub fn alter(text: &mut [u8]) {
    let count: &mut [u8; 8] = (&mut text[..8]).try_into().unwrap();
    *count = u64::from_le_bytes(*count).wrapping_add(1).to_le_bytes();
}

/// What this process has written to files so far, in bytes.
pub fn bytes_to_files() -> u64 {
    let text = std::fs::read_to_string("/proc/self/io").unwrap_or_default();
    let line = text.lines().find_map(|line| line.strip_prefix("wchar: "));
    line.and_then(|number| number.parse().ok()).unwrap_or(0)
}
