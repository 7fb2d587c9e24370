//! What is measured beside others: the rows of the tables, all columns with the
//! same inputs.

use crate::column::*;
use crate::measure::*;
use crate::port::{self, Record};
use crate::second::Second;
use crate::store::Store;
use crate::table;
use crate::First;
use std::cell::RefCell;
use std::hint::black_box;
use std::rc::Rc;

pub const SIZES: [usize; 4] = [8, 64, 512, 1_024];
pub const WRITERS: [usize; 3] = [1, 8, 32];
pub const OPENED: [usize; 4] = [0, 100, 1_000, LOG_ENTRIES];
/// The bytes of a write wherever nothing else is said.
pub const SIZE: usize = 64;

/// A column, which several cells use in turn.
pub type Shared = Rc<RefCell<dyn Column>>;
pub type Columns = [Shared];

/// A row: what it measures, and a cell a column, first the one that ratios are
/// taken against.
#[derive(Clone)]
pub struct Row {
    pub label: String,
    pub places: Vec<Place>,
}

impl Row {
    pub fn cells(&self, run: &Run) -> Vec<String> {
        let values: Vec<_> = self.places.iter().map(|&place| run.value(place)).collect();
        table::with_ratios(&self.label, &values, table::time)
    }
}

/// A row's label: what, and how many writers if not one.
fn label(what: String, writers: usize) -> String {
    match writers {
        1 => what,
        _ => format!("{what}, {writers} taking turns"),
    }
}

/// Committed writes: that many after laying out, which is not timed.
pub fn write(run: &mut Run, column: &Shared, writers: usize, size: usize, writes: usize) -> Place {
    let column = column.clone();
    let rounds = writes / writers;
    run.add(move || {
        let mut column = column.borrow_mut();
        let mut text = text_of(size);
        column.fresh(writers);
        let time = timed(|| column.rounds(rounds, &mut text));
        Some(Work { time, pieces: rounds * writers })
    })
}

/// The reference, which each section measures again: a write of 64 bytes by the
/// first column, in a log that such writes fill.
pub fn reference(run: &mut Run, columns: &Columns) -> Place {
    write(run, &columns[0], 1, SIZE, LOG_ENTRIES)
}

/// Opening what the column keeps: so often at a time that the clock does not
/// count, and no more.
pub fn open(run: &mut Run, column: &Shared) -> Place {
    let column = column.clone();
    let once = column.borrow_mut().open(1).unwrap_or(LEAST);
    let times = (LEAST.as_nanos() / 10 / once.as_nanos().max(1)).clamp(1, 1_000) as usize;
    run.add(move || {
        let time = column.borrow_mut().open(times)?;
        Some(Work { time, pieces: times })
    })
}

/// A row of committed writes: as many as a log holds.
pub fn writes(run: &mut Run, columns: &Columns, writers: usize, size: usize) -> Row {
    let label = label(format!("write {} B", table::grouped(size)), writers);
    Row { label, places: columns.iter().map(|column| write(run, column, writers, size, LOG_ENTRIES)).collect() }
}

/// A row of openings with that many log entries, of columns that are used for
/// nothing else.
pub fn openings(run: &mut Run, columns: &Columns, entries: usize) -> Row {
    let label = format!("open, {} log entries", table::grouped(entries));
    columns.iter().for_each(|column| column.borrow_mut().keep(entries));
    Row { label, places: columns.iter().map(|column| open(run, column)).collect() }
}

/// How 1 kB is read: at once, or in steps.
type Reading = fn(&mut dyn Column, usize, &mut [u8]);

fn read_row(run: &mut Run, columns: &Columns, label: &str, times: usize, read: Reading) -> Row {
    let places = columns.iter().map(|column| {
        let mut text = text_of(1_024);
        let mut buffer = Buffer([0; 1_024]);
        let column = column.clone();
        column.borrow_mut().fresh(1);
        column.borrow_mut().rounds(1, &mut text);
        read(&mut *column.borrow_mut(), 1, &mut buffer.0);
        assert!(buffer.0[..] == text[..], "{} reads other bytes", column.borrow().name());
        run.add(move || {
            let time = timed(|| read(&mut *column.borrow_mut(), times, &mut buffer.0));
            black_box(&buffer.0);
            Some(Work { time, pieces: times })
        })
    });
    Row { label: label.to_string(), places: places.collect() }
}

/// A row of reads of 1 kB, of columns that are used for nothing else.
pub fn reads(run: &mut Run, columns: &Columns) -> Row {
    read_row(run, columns, "read 1,024 B", 1_000, |column, times, buffer| column.read(times, buffer))
}

/// The same in 129 steps, where a column has steps.
pub fn reads_in_steps(run: &mut Run, columns: &Columns) -> Row {
    read_row(run, columns, "read 1,024 B, in steps", 100, |column, times, buffer| column.read_in_steps(times, buffer))
}

/// The cells of a row of words stored for each byte written, over as many
/// writes as a log holds. Counted, not timed.
pub fn words_stored(columns: &Columns, writers: usize, size: usize) -> Vec<String> {
    let written = (LOG_ENTRIES * size) as f64;
    let values = columns.iter().map(|column| {
        let mut column = column.borrow_mut();
        column.fresh(writers);
        column.rounds(LOG_ENTRIES / writers, &mut text_of(size));
        column.bytes_stored().map(|bytes| bytes as f64 / 8.0 / written)
    });
    table::with_ratios(&label(format!("{} B", table::grouped(size)), writers), &values.collect::<Vec<_>>(), table::number)
}

/// The implementations of one step, in the order of `steps`.
pub fn step_names() -> Vec<String> {
    let mut names = vec![First::NAME, "Rust port, record by value", "Rust port, record behind `&mut`"];
    if First::NAME != Second::NAME {
        names.insert(1, Second::NAME);
    }
    names.into_iter().map(String::from).collect()
}

/// A row of one step that fills a word.
pub fn steps(run: &mut Run) -> Row {
    let mut first = First::begun();
    let mut second = Second::begun();
    let mut by_value = Port::new();
    let mut by_reference = Port::new();
    let mut places = vec![fill(run, move |times| first.fill_block(times))];
    if First::NAME != Second::NAME {
        places.push(fill(run, move |times| second.fill_block(times)));
    }
    places.push(fill(run, move |times| by_value.fill_by_value(times)));
    places.push(fill(run, move |times| by_reference.fill_by_reference(times)));
    Row { label: "one step (a fill)".to_string(), places }
}

/// The 64 steps that fill a block.
fn fill(run: &mut Run, mut work: impl FnMut(usize) + 'static) -> Place {
    run.add(move || {
        let times = 200;
        Some(Work { time: timed(|| work(times)), pieces: 64 * times })
    })
}

/// The plain Rust port with its image.
pub struct Port {
    image: Vec<u64>,
    shared: port::Shared,
    record: Record,
}

impl Port {
    pub fn new() -> Port {
        let text = text_of(512).try_into().unwrap();
        Port { image: vec![0; 65_536], shared: port::opened(), record: port::begun(&text) }
    }

    pub fn rewind(&mut self) {
        self.record.head.position = 0;
    }

    pub fn step_by_value(&mut self) {
        self.record = port::step_by_value(&mut self.image, &self.shared, self.record).expect("a fill");
    }

    pub fn step_by_reference(&mut self) {
        assert!(port::step_by_reference(&mut self.image, &self.shared, &mut self.record), "a fill");
    }

    fn fill_by_value(&mut self, times: usize) {
        for _ in 0..times {
            self.rewind();
            for _ in 0..64 {
                self.step_by_value();
            }
        }
    }

    fn fill_by_reference(&mut self, times: usize) {
        for _ in 0..times {
            self.rewind();
            for _ in 0..64 {
                self.step_by_reference();
            }
        }
    }
}

impl Default for Port {
    fn default() -> Self {
        Port::new()
    }
}
