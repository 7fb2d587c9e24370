//! The call that serves a list of points, with one write each, through C.

use crate::column::*;
use crate::library::*;
use crate::measure::*;
use crate::rows::{Row, Shared};
use crate::store::Store;
use crate::table::{self, number};
use std::cell::RefCell;
use std::rc::Rc;

extern "C" {
    fn bench_lists_size() -> usize;
    fn bench_list(lists: *mut Block, points: *const u64, count: usize, length: usize);
    fn bench_serve(
        image: *mut u64,
        words: usize,
        shared: *mut u64,
        lists: *mut Block,
        count: usize,
        text: *const u8,
        length: usize,
    ) -> u32;
}

/// This library with the lists that the call is lent. The records in the lists
/// are the points'.
pub struct Served {
    library: Library,
    lists: Vec<Block>,
    points: usize,
    size: usize,
    bytes: Vec<u8>,
}

impl Served {
    fn new() -> Served {
        // SAFETY: it answers a number.
        let lists = Block::with(unsafe { bench_lists_size() });
        Served { library: Library::new(1_024), lists, points: 0, size: 0, bytes: Vec::new() }
    }

    /// Points that have been served once with writes of that many bytes.
    pub fn once(points: usize, size: usize) -> Served {
        let mut served = Served::new();
        served.fresh(points, size);
        served.serve();
        served
    }

    /// Everything as in `from`, which has as many points and bytes.
    pub fn restore(&mut self, from: &Served) {
        self.library.restore(&from.library);
        self.lists.copy_from_slice(&from.lists);
    }

    /// Nothing written, and that many points with writes of that many bytes.
    fn fresh(&mut self, points: usize, size: usize) {
        self.library.lay_out();
        (0..points).for_each(|number| self.library.join(number));
        // SAFETY: here and below the C functions get memory of the sizes that they are told.
        unsafe { bench_list(self.lists.as_mut_ptr(), self.library.points.as_ptr(), points, size) };
        (self.points, self.size) = (points, size);
        self.bytes = text_of(size).repeat(points);
    }

    /// In each round the texts are altered and the points are served once.
    fn rounds(&mut self, times: usize) {
        for _ in 0..times {
            self.bytes.chunks_exact_mut(self.size).for_each(alter);
            self.serve();
        }
    }

    /// One call.
    pub fn serve(&mut self) {
        let (image, words) = self.library.image_to_write();
        let (shared, lists) = (self.library.shared.as_mut_ptr(), self.lists.as_mut_ptr());
        accepted(unsafe { bench_serve(image, words, shared, lists, self.points, self.bytes.as_ptr(), self.bytes.len()) });
    }
}

/// What is aimed at with so many points: so great a part of LMDB's time at
/// most, and of libpmemobj's, of which 1 is not enough.
struct Aim {
    points: usize,
    lmdb: f64,
    pmemobj: f64,
}

const AIMS: [Aim; 3] = [
    Aim { points: 1, lmdb: 1.0 / 4.0, pmemobj: 1.0 / 2.0 },
    Aim { points: 8, lmdb: 1.0 / 3.0, pmemobj: 1.0 },
    Aim { points: 32, lmdb: 1.0 / 2.0, pmemobj: 1.0 },
];

impl Aim {
    fn sizes(&self) -> &'static [usize] {
        match self.points {
            1 => &[8, 64, 512, 1_024],
            _ => &[64, 1_024],
        }
    }

    fn is_met(&self, of_lmdb: f64, of_pmemobj: f64) -> bool {
        of_lmdb <= self.lmdb && if self.pmemobj < 1.0 { of_pmemobj <= self.pmemobj } else { of_pmemobj < 1.0 }
    }
}

/// What is measured: with which aim, and how many bytes.
fn shapes() -> impl Iterator<Item = (&'static Aim, usize)> {
    AIMS.iter().flat_map(|aim| aim.sizes().iter().map(move |&size| (aim, size)))
}

/// The section: a row for each number of points and bytes.
pub struct Serving {
    rows: Vec<ServingRow>,
}

struct ServingRow {
    aim: &'static Aim,
    size: usize,
    /// Served in one call, then the other columns' writes.
    row: Row,
    /// This library's points taking steps in turn.
    by_steps: Place,
}

fn label(points: usize, size: usize) -> String {
    let size = table::grouped(size);
    match points {
        1 => format!("serve 1 point, {size} B"),
        _ => format!("serve {points} points, {size} B each"),
    }
}

/// Points and bytes of the row with that label.
pub fn named(name: &str) -> Option<(usize, usize)> {
    shapes().map(|(aim, size)| (aim.points, size)).find(|&(points, size)| label(points, size) == name)
}

/// A row of serving: its cell in place of the first of the row of writes.
fn beside(run: &mut Run, served: &Rc<RefCell<Served>>, others: &Row, points: usize, size: usize) -> Row {
    let mut places = others.places.clone();
    places[0] = serve(run, served, points, size);
    Row { label: label(points, size), places }
}

/// One row alone.
pub fn row(run: &mut Run, others: &Row, points: usize, size: usize) -> Row {
    beside(run, &Rc::new(RefCell::new(Served::new())), others, points, size)
}

impl Serving {
    /// `writes` has the row of all columns' writes for so many writers and
    /// bytes.
    pub fn plan(run: &mut Run, mut writes: impl FnMut(&mut Run, usize, usize) -> Row) -> Serving {
        let served = Rc::new(RefCell::new(Served::new()));
        let rows = shapes().map(|(aim, size)| {
            let others = writes(run, aim.points, size);
            ServingRow { aim, size, row: beside(run, &served, &others, aim.points, size), by_steps: others.places[0] }
        });
        Serving { rows: rows.collect() }
    }

    /// The row for so many points and bytes.
    pub fn row(&self, points: usize, size: usize) -> Option<&Row> {
        self.rows.iter().find(|row| (row.aim.points, row.size) == (points, size)).map(|row| &row.row)
    }

    /// The columns' names are those of the rows of writes.
    pub fn text(&self, run: &Run, columns: &[Shared]) -> String {
        let names: Vec<String> = columns.iter().map(|column| column.borrow().name().to_string()).collect();
        let mut head = vec![String::new()];
        head.extend(names.iter().cloned());
        head.insert(2, "in steps".to_string());
        let rows: Vec<_> = self.rows.iter().map(|row| row.cells(run)).collect();
        "## Serving\n\n\
         One call serves all points with one write each; a call with n points counts as n writes. Each point overwrites its own place, so no word \
         is filled twice. The others make the same writes, one transaction each, and in steps the points of this library and of the second implementation \
         take turns: these cells are those of \"Committed writes\". A full log is laid out, opened and joined again outside the timed part. Nothing is \
         written back, as there.\n\n"
            .to_string()
            + &table::text(&head, &rows)
            + &self.aims(run, &names)
    }

    /// The aims, and whether they are met.
    fn aims(&self, run: &Run, names: &[String]) -> String {
        let column = |name: &str| names.iter().position(|other| other == name);
        let (Some(lmdb), Some(pmemobj)) = (column("LMDB"), column("libpmemobj")) else { return String::new() };
        let head = ["", "of LMDB's time", "of libpmemobj's time", "aim"].map(String::from);
        let rows: Vec<_> = self.rows.iter().map(|row| row.aim_cells(run, lmdb, pmemobj)).collect();
        "What is aimed at: with one point a quarter of LMDB's time at most and half of libpmemobj's, with 8 a third of LMDB's, with 32 half of it, and \
         with both less than libpmemobj's.\n\n"
            .to_string()
            + &table::text(&head, &rows)
    }
}

impl ServingRow {
    fn cells(&self, run: &Run) -> Vec<String> {
        let mut cells = self.row.cells(run);
        let (steps, first) = (run.time(self.by_steps), run.time(self.row.places[0]));
        cells.insert(2, table::with_ratio(table::time(steps), steps, first));
        cells
    }

    fn aim_cells(&self, run: &Run, lmdb: usize, pmemobj: usize) -> Vec<String> {
        let part = |column: usize| run.time(self.row.places[0]) / run.time(self.row.places[column]);
        let met = if self.aim.is_met(part(lmdb), part(pmemobj)) { "met" } else { "not met" };
        let aimed = |part: f64| if part < 1.0 { format!("at most {}", number(part)) } else { "below 1".to_string() };
        let cell = |part: f64, aim: f64| format!("{} (aim: {})", number(part), aimed(aim));
        vec![self.row.label.clone(), cell(part(lmdb), self.aim.lmdb), cell(part(pmemobj), self.aim.pmemobj), met.to_string()]
    }
}

/// As many writes as a log holds, after laying out, which is not timed.
fn serve(run: &mut Run, served: &Rc<RefCell<Served>>, points: usize, size: usize) -> Place {
    let served = served.clone();
    let rounds = LOG_ENTRIES / points;
    run.add(move || {
        let mut served = served.borrow_mut();
        served.fresh(points, size);
        let time = timed(|| served.rounds(rounds));
        Some(Work { time, pieces: rounds * points })
    })
}
