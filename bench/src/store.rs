//! An implementation of document 01, and the column made of it.

use crate::column::*;
use crate::measure::timed;
use std::time::Duration;

/// The kinds of a step's answers, as the C interface numbers them.
pub const STORED: usize = 1;
pub const MOVED: usize = 2;
pub const EXTENDING: usize = 3;
pub const COMMITTED: usize = 4;
pub const REFUSED: usize = 5;
pub const COPIED: usize = 6;
pub const BYTES: usize = 7;
/// Answers are tallied by kind.
pub type Tally = [u64; 8];

/// A map of taken blocks, a bit each.
pub type Map = [u64; 16];

/// An implementation with its image, its records and a tally of its steps'
/// answers by kind. Every call panics where the implementation refuses.
pub trait Store {
    const NAME: &'static str;
    const PROMISE: &'static str;

    /// Memory for that many blocks, all of it touched, laid out.
    fn new(blocks: usize) -> Self;
    /// Laid out and opened, no point joined, nothing tallied.
    fn lay_out(&mut self);
    /// Everything as in `from`, which has as many blocks.
    fn restore(&mut self, from: &Self);
    /// Opens again: the count of log entries. No point is joined then.
    fn open(&mut self) -> usize;
    fn join(&mut self, number: usize);
    fn leave(&mut self, number: usize);
    fn begin(&mut self, number: usize, offset: usize, text: &[u8]);
    fn step(&mut self, number: usize);
    /// A point that is filling fills from its first word again.
    fn rewind(&mut self, number: usize);
    /// Points from `first` on begin, each at APART times its number, then
    /// take one step each in turn until all have committed.
    fn turns(&mut self, first: usize, count: usize, text: &[u8]);
    fn read(&self, number: usize, offset: usize, buffer: &mut [u8]) -> usize;
    /// Begins a read in steps.
    fn begin_read(&mut self, number: usize, offset: usize, size: usize);
    /// A read in steps, from its beginning to its bytes.
    fn read_in_steps(&mut self, number: usize, offset: usize, buffer: &mut [u8]);
    fn tally(&self) -> Tally;
    fn map(&self) -> Map;
    /// The point is idle, as if it had begun nothing, and the map is that one.
    fn put_back(&mut self, number: usize, map: &Map);

    /// Steps of a point until its write is committed.
    fn finish(&mut self, number: usize) {
        let committed = self.tally()[COMMITTED];
        while self.tally()[COMMITTED] == committed {
            self.step(number);
        }
    }

    /// Laid out, and that many log entries, all by point 0 and at the writers'
    /// places in turn: the first write has `first` bytes, the others 64.
    fn write_entries(&mut self, entries: usize, first: usize) {
        self.lay_out();
        self.join(0);
        for i in 0..entries {
            let text = text_of(if i == 0 { first } else { 64 });
            self.begin(0, APART * (i % MOST_WRITERS), &text);
            self.finish(0);
        }
    }

    /// A store of 1,024 blocks with that many log entries.
    fn with_entries(entries: usize, first: usize) -> Self
    where
        Self: Sized,
    {
        let mut store = Self::new(1_024);
        store.write_entries(entries, first);
        store
    }

    /// A point's write of a whole block is under way, nothing of it filled.
    fn begun() -> Self
    where
        Self: Sized,
    {
        let mut store = Self::new(1_024);
        store.join(0);
        store.begin(0, 0, &text_of(512));
        store
    }

    /// A write of 8 bytes is under way over a block that is mapped, nothing of it filled.
    fn over(offset: usize) -> Self
    where
        Self: Sized,
    {
        let mut store = Self::begun();
        store.finish(0);
        store.begin(0, offset, &text_of(8));
        store
    }

    /// A read of 1,024 bytes of the file is under way, so many words of it copied.
    fn reading(words: usize) -> Self
    where
        Self: Sized,
    {
        let mut store = Self::with_entries(0, 64);
        store.turns(0, 1, &text_of(1_024));
        store.begin_read(0, 0, 1_024);
        for _ in 0..words {
            store.step(0);
        }
        store
    }

    /// The 64 fills of a write of a whole block, that many times.
    fn fill_block(&mut self, times: usize) {
        for _ in 0..times {
            self.rewind(0);
            for _ in 0..64 {
                self.step(0);
            }
        }
    }
}

/// The column of a store: its points take turns.
pub struct Turns<S> {
    store: S,
    points: usize,
}

impl<S: Store> Turns<S> {
    pub fn of(store: S) -> Turns<S> {
        Turns { store, points: 0 }
    }
}

impl<S: Store> Column for Turns<S> {
    fn name(&self) -> &'static str {
        S::NAME
    }

    fn promise(&self) -> &'static str {
        S::PROMISE
    }

    fn fresh(&mut self, writers: usize) {
        self.store.lay_out();
        self.points = writers;
        for number in 0..writers {
            self.store.join(number);
        }
    }

    fn rounds(&mut self, times: usize, text: &mut [u8]) {
        for _ in 0..times {
            alter(text);
            self.store.turns(0, self.points, text);
        }
    }

    fn bytes_stored(&self) -> Option<u64> {
        let tally = self.store.tally();
        Some(8 * (tally[STORED] + tally[COMMITTED]))
    }

    fn keep(&mut self, entries: usize) {
        self.store.write_entries(entries, 64);
        assert_eq!(self.store.open(), entries);
    }

    fn open(&mut self, times: usize) -> Option<Duration> {
        Some(timed(|| {
            for _ in 0..times {
                self.store.open();
            }
        }))
    }

    fn read(&mut self, times: usize, buffer: &mut [u8]) {
        for _ in 0..times {
            assert_eq!(self.store.read(0, 0, buffer), buffer.len());
        }
    }

    fn read_in_steps(&mut self, times: usize, buffer: &mut [u8]) {
        for _ in 0..times {
            self.store.read_in_steps(0, 0, buffer);
        }
    }
}
