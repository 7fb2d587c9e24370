//! The clock, the run in which all cells take turns, quartiles.

use std::time::{Duration, Instant};

/// `Instant` reads CLOCK_MONOTONIC.
pub const CLOCK: &str = "CLOCK_MONOTONIC";
pub const REPETITIONS: usize = 41;
/// A repetition takes at least this long.
pub const LEAST: Duration = Duration::from_millis(10);

/// Timed work: how long, and how many pieces.
#[derive(Clone, Copy)]
pub struct Work {
    pub time: Duration,
    pub pieces: usize,
}

/// The time that `work` takes.
pub fn timed(work: impl FnOnce()) -> Duration {
    let start = Instant::now();
    work();
    start.elapsed()
}

/// That many calls of `piece`, timed together.
pub fn timed_times(times: usize, mut piece: impl FnMut()) -> Option<Work> {
    let time = timed(|| (0..times).for_each(|_| piece()));
    Some(Work { time, pieces: times })
}

/// Where a cell's values stand in the run. Two tables that show the same work
/// show the same place.
#[derive(Clone, Copy, PartialEq, Eq)]
pub struct Place(usize);

/// A cell: what it does at each call, and what came out in each repetition.
struct Cell {
    work: Box<dyn FnMut() -> Option<Work>>,
    values: Vec<f64>,
}

/// All cells of all tables. In each repetition all of them take turns, so that
/// a machine that slows down slows all alike; the lower quartile counts.
#[derive(Default)]
pub struct Run {
    cells: Vec<Cell>,
}

impl Run {
    /// Another cell; its work answers None where there is no such work.
    pub fn add(&mut self, work: impl FnMut() -> Option<Work> + 'static) -> Place {
        self.cells.push(Cell { work: Box::new(work), values: Vec::new() });
        Place(self.cells.len() - 1)
    }

    pub fn measure(&mut self, repetitions: usize) {
        for repetition in 1..=repetitions {
            eprintln!("repetition {repetition} of {repetitions}");
            for cell in &mut self.cells {
                cell.values.extend(nanoseconds(&mut cell.work));
            }
        }
    }

    /// Nanoseconds a piece, in each repetition.
    pub fn values(&self, place: Place) -> &[f64] {
        &self.cells[place.0].values
    }

    /// Nanoseconds a piece; None where there is no such work.
    pub fn value(&self, place: Place) -> Option<f64> {
        quartile(self.values(place).to_vec())
    }

    /// Nanoseconds a piece, where there is such work.
    pub fn time(&self, place: Place) -> f64 {
        self.value(place).expect("a cell that is measured")
    }

    /// How far the fastest repetition lies below what counts, as a part of
    /// that; 0 of none.
    pub fn spread(&self, place: Place) -> f64 {
        let least = self.values(place).iter().copied().reduce(f64::min);
        least.zip(self.value(place)).map_or(0.0, |(least, value)| (value - least) / value)
    }
}

/// Nanoseconds a piece: `work` is repeated until its times add up to LEAST. A
/// first time does not count: it fills the caches, which other cells have used.
fn nanoseconds(work: &mut dyn FnMut() -> Option<Work>) -> Option<f64> {
    work()?;
    let mut time = Duration::ZERO;
    let mut pieces = 0;
    while time < LEAST {
        let done = work()?;
        time += done.time;
        pieces += done.pieces;
    }
    Some(time.as_nanos() as f64 / pieces as f64)
}

/// The value that a quarter of the values lie below; None of no value. Other
/// work on the machine makes some repetitions slower, and none faster.
fn quartile(mut values: Vec<f64>) -> Option<f64> {
    values.sort_by(f64::total_cmp);
    values.get(values.len() / 4).copied()
}
