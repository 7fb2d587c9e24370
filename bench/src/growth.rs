//! How the cost grows: with the points, with the log, with the image.

use crate::column::*;
use crate::measure::*;
use crate::page::{Opened, Writes};
use crate::rows::*;
use crate::shared;
use crate::store::*;
use crate::svg::{Panel, Series};
use crate::table::{self, grouped, number, time};
use crate::First;
use std::cell::RefCell;
use std::hint::black_box;
use std::rc::Rc;

const POINTS: [usize; 6] = [1, 2, 4, 8, 16, 32];
const ENTRIES: [usize; 6] = [0, 500, 1_000, 2_000, 3_000, 3_900];
const BLOCKS: [usize; 4] = [16, 64, 256, 1_024];
/// A log block's entries.
const LOG_BLOCK: usize = 62;
/// So many writes add one log block, after each of ENTRIES; after the last of
/// them they fill the log.
const AT_TAIL: usize = 68;

fn table_text(head: &[&str], rows: Vec<Vec<String>>) -> String {
    table::text(&head.iter().map(|cell| cell.to_string()).collect::<Vec<_>>(), &rows)
}

/// A series of a panel: where there is a cell.
fn series<R>(run: &Run, name: &'static str, rows: &[R], x: impl Fn(&R) -> f64, place: impl Fn(&R) -> Option<Place>) -> Series {
    let marks = rows.iter().filter_map(|row| Some((x(row), run.time(place(row)?))));
    Series { name, marks: marks.collect() }
}

/// Points whose steps take turns, and points whose whole writes do.
pub struct Points {
    rows: Vec<PointsRow>,
}

struct PointsRow {
    points: usize,
    by_steps: Place,
    /// Steps, and steps that answer Moved, a write.
    steps: f64,
    moved: f64,
    by_writes: Place,
}

impl Points {
    /// What the section on committed writes measures stands here too.
    pub fn plan(run: &mut Run, columns: &Columns, writes: &Writes) -> Points {
        let store = Rc::new(RefCell::new(First::new(1_024)));
        let rows = POINTS.map(|points| {
            let (steps, moved) = steps_of(points);
            let by_steps = writes.place(0, points, SIZE).unwrap_or_else(|| write(run, &columns[0], points, SIZE, LOG_ENTRIES));
            let by_writes = if points == 1 { by_steps } else { whole_writes(run, &store, points) };
            PointsRow { points, by_steps, steps, moved, by_writes }
        });
        Points { rows: rows.into() }
    }

    pub fn text(&self, run: &Run) -> String {
        let row = |row: &PointsRow| {
            let (by_steps, by_writes) = (run.time(row.by_steps), run.time(row.by_writes));
            vec![row.points.to_string(), time(by_steps), number(row.steps), number(row.moved), time(by_writes)]
        };
        let head = ["points", "steps take turns", "steps a write", "Moved a write", "whole writes take turns"];
        let (first, last) = (&self.rows[0], &self.rows[self.rows.len() - 1]);
        format!("### With the points\n\nA write of {SIZE} bytes; 1, 8 and 32 points whose steps take turns stand also under \"Committed writes\".\n\n")
            + &table_text(&head, self.rows.iter().map(row).collect())
            + &format!(
                "With {} points whose steps take turns a write takes {} times as long as alone and {} times as many steps, {} of them Moved; \
                 where whole writes take turns it takes {} times as long, for a beginning catches up with the others' entries.\n\n",
                last.points,
                number(run.time(last.by_steps) / run.time(first.by_steps)),
                number(last.steps / first.steps),
                number(last.moved),
                number(run.time(last.by_writes) / run.time(first.by_writes))
            )
    }

    pub fn panel(&self, run: &Run) -> Panel {
        let doublings = |row: &PointsRow| (row.points as f64).log2();
        Panel {
            title: "With the points",
            across: "points",
            ticks: self.rows.iter().map(|row| (doublings(row), row.points.to_string())).collect(),
            series: vec![
                series(run, "write 64 B, steps take turns", &self.rows, doublings, |row| Some(row.by_steps)),
                series(run, "write 64 B, whole writes take turns", &self.rows, doublings, |row| Some(row.by_writes)),
            ],
        }
    }
}

/// Steps, and steps that answer Moved, a write: counted over a log.
fn steps_of(points: usize) -> (f64, f64) {
    let mut store = First::new(1_024);
    (0..points).for_each(|number| store.join(number));
    (0..LOG_ENTRIES / points).for_each(|_| store.turns(0, points, &text_of(SIZE)));
    let tally = store.tally().map(|count| count as f64);
    (tally.iter().sum::<f64>() / tally[COMMITTED], tally[MOVED] / tally[COMMITTED])
}

/// Each point makes a whole write in turn.
fn whole_writes(run: &mut Run, store: &Rc<RefCell<First>>, points: usize) -> Place {
    let store = store.clone();
    let mut text = text_of(SIZE);
    run.add(move || {
        let mut store = store.borrow_mut();
        store.lay_out();
        (0..points).for_each(|number| store.join(number));
        let rounds = LOG_ENTRIES / points;
        let time = timed(|| {
            for _ in 0..rounds {
                alter(&mut text);
                (0..points).for_each(|number| store.turns(number, 1, &text));
            }
        });
        Some(Work { time, pieces: rounds * points })
    })
}

/// What a log that is there already costs.
pub struct Log {
    rows: Vec<LogRow>,
}

struct LogRow {
    entries: usize,
    write: Place,
    /// None where nothing is written.
    read: Option<Place>,
    newcomer: Place,
    newcomer_read: Option<Place>,
}

impl Log {
    pub fn plan(run: &mut Run) -> Log {
        let store = Rc::new(RefCell::new(First::new(1_024)));
        let rows = ENTRIES.map(|entries| LogRow {
            entries,
            write: write_at_tail(run, &store, entries),
            read: (entries > 0).then(|| read_by(run, entries, 0)),
            newcomer: newcomer(run, entries),
            newcomer_read: (entries > 0).then(|| read_by(run, entries, 31)),
        });
        Log { rows: rows.into() }
    }

    pub fn text(&self, run: &Run) -> String {
        let cell = |place: Option<Place>| place.map_or("–".to_string(), |place| time(run.time(place)));
        let row = |row: &LogRow| {
            vec![grouped(row.entries), cell(Some(row.write)), cell(row.read), cell(Some(row.newcomer)), cell(row.newcomer_read)]
        };
        let head = ["log entries", "write at the tail", "read at the tail", "a newcomer joins, begins, leaves", "read by a newcomer"];
        let (first, last) = (&self.rows[0], &self.rows[self.rows.len() - 1]);
        let span = (last.entries - first.entries) as f64;
        format!(
            "### With the log\n\nWrites of {SIZE} bytes and reads of 1,024. A point at the tail has caught up; a newcomer has just joined. \
             After each {AT_TAIL} writes, which add one log block, the image is put back, not timed. With no entries that is the work of the reference, \
             which goes on for {} writes before its image is laid out again.\n\n",
            grouped(LOG_ENTRIES)
        ) + &table_text(&head, self.rows.iter().map(row).collect())
            + &format!(
                "With {} log entries behind it a write of a point at the tail takes {} times what it takes with none; \
                 a newcomer pays {} ns an entry once, at its first beginning, and a read with a record that has not caught up pays that each time.\n\n",
                grouped(last.entries),
                number(run.time(last.write) / run.time(first.write)),
                number((run.time(last.newcomer) - run.time(first.newcomer)) / span)
            )
    }

    pub fn panel(&self, run: &Run) -> Panel {
        let entries = |row: &LogRow| row.entries as f64;
        Panel {
            title: "With the log",
            across: "log entries",
            ticks: (0..=4).map(|thousands| (1_000.0 * thousands as f64, grouped(1_000 * thousands))).collect(),
            series: vec![
                series(run, "write 64 B at the tail", &self.rows, entries, |row| Some(row.write)),
                series(run, "read 1,024 B at the tail", &self.rows, entries, |row| row.read),
                series(run, "a newcomer joins, begins, leaves", &self.rows, entries, |row| Some(row.newcomer)),
                series(run, "read 1,024 B by a newcomer", &self.rows, entries, |row| row.newcomer_read),
            ],
        }
    }
}

/// A store with that many log entries, the first of them of 1,024 bytes, for
/// the reads.
fn with_log(entries: usize) -> First {
    First::with_entries(entries, 1_024)
}

/// Writes by a point that has passed the whole log; before them everything is
/// put back, not timed.
fn write_at_tail(run: &mut Run, store: &Rc<RefCell<First>>, entries: usize) -> Place {
    let kept = with_log(entries);
    let store = store.clone();
    let mut text = text_of(SIZE);
    run.add(move || {
        let mut store = store.borrow_mut();
        store.restore(&kept);
        timed_times(AT_TAIL, || {
            alter(&mut text);
            store.turns(0, 1, &text);
        })
    })
}

/// A new point joins, begins and leaves.
fn newcomer(run: &mut Run, entries: usize) -> Place {
    let mut store = with_log(entries);
    let text = text_of(SIZE);
    run.add(move || {
        timed_times(100, || {
            store.join(31);
            store.begin(31, 0, &text);
            store.leave(31);
        })
    })
}

/// Reads of 1,024 bytes by a point at the tail (0) or one that has just
/// joined (31).
fn read_by(run: &mut Run, entries: usize, point: usize) -> Place {
    let mut store = with_log(entries);
    if point != 0 {
        store.join(point);
    }
    let mut buffer = Buffer([0; 1_024]);
    run.add(move || {
        timed_times(100, || {
            assert_eq!(store.read(point, 0, black_box(&mut buffer.0)), 1_024);
        })
    })
}

/// What a larger image costs.
pub struct Image {
    rows: Vec<ImageRow>,
}

struct ImageRow {
    blocks: usize,
    writes: usize,
    write: Place,
    open: Place,
}

impl Image {
    /// An image of 1,024 blocks is that of the sections on committed writes and
    /// on opening.
    pub fn plan(run: &mut Run, writes: &Writes, opened: &Opened) -> Image {
        let rows = BLOCKS.map(|blocks| {
            let most = LOG_ENTRIES.min(LOG_BLOCK * (blocks - 4));
            let (write, open) = match blocks {
                1_024 => (writes.place(0, 1, SIZE).unwrap(), opened.place(0, 0).unwrap()),
                _ => {
                    let kept = shared(Turns::of(First::new(blocks)));
                    kept.borrow_mut().keep(0);
                    (write(run, &shared(Turns::of(First::new(blocks))), 1, SIZE, most), open(run, &kept))
                }
            };
            ImageRow { blocks, writes: most, write, open }
        });
        Image { rows: rows.into() }
    }

    pub fn text(&self, run: &Run) -> String {
        let row = |row: &ImageRow| vec![grouped(row.blocks), grouped(row.writes), time(run.time(row.write)), time(run.time(row.open))];
        let (first, last) = (&self.rows[0], &self.rows[self.rows.len() - 1]);
        format!(
            "### With the image\n\nWrites of {SIZE} bytes, on each laid-out image until its log is full or has all blocks but four, \
             and opening an empty one. The row of 1,024 blocks is \"write 64 B\" and \"open, 0 log entries\".\n\n"
        ) + &table_text(&["blocks", "writes", "write", "open"], self.rows.iter().map(row).collect())
            + &format!(
                "From {} to {} blocks a write takes {} times as long and opening {} times.\n\n",
                grouped(first.blocks),
                grouped(last.blocks),
                number(run.time(last.write) / run.time(first.write)),
                number(run.time(last.open) / run.time(first.open))
            )
    }

    pub fn panel(&self, run: &Run) -> Panel {
        let doublings = |row: &ImageRow| (row.blocks as f64).log2();
        Panel {
            title: "With the image",
            across: "blocks of the image",
            ticks: self.rows.iter().map(|row| (doublings(row), grouped(row.blocks))).collect(),
            series: vec![
                series(run, "write 64 B", &self.rows, doublings, |row| Some(row.write)),
                series(run, "open an empty image", &self.rows, doublings, |row| Some(row.open)),
            ],
        }
    }
}
