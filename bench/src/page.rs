//! The page: its sections, and what the run says of itself.

use crate::beginning::{self, beginnings};
use crate::column::LOG_ENTRIES;
use crate::growth::{Image, Log, Points};
use crate::measure::*;
use crate::rows::*;
use crate::second::Second;
#[cfg(feature = "library")]
use crate::serving::{self, Serving};
use crate::store::Store;
use crate::table::{self, time};
#[cfg(feature = "library")]
use crate::written_back::WrittenBack;
use crate::{columns, svg, First};
use std::path::Path;

/// Sections whose references differ by more than this part do not compare.
const DRIFT: f64 = 0.10;

/// Columns that the README's table does without.
const LEFT_OUT: [&str; 3] = [Second::NAME, "SQLite, NORMAL", "libpmemlog"];

/// Whether the README's table has the column.
fn is_kept(column: &Shared) -> bool {
    let name = column.borrow().name();
    name == First::NAME || !LEFT_OUT.contains(&name)
}

/// A table's head: the columns' names.
fn head(first: &str, columns: &Columns) -> Vec<String> {
    std::iter::once(first.to_string()).chain(columns.iter().map(|column| column.borrow().name().to_string())).collect()
}

fn promises(columns: &Columns) -> Vec<String> {
    let promises = columns.iter().map(|column| column.borrow().promise().to_string());
    std::iter::once("after a power loss".to_string()).chain(promises).collect()
}

/// The rows of committed writes, which other sections show too.
pub struct Writes {
    names: Vec<&'static str>,
    rows: Vec<(usize, usize, Row)>,
}

impl Writes {
    fn plan(run: &mut Run, columns: &Columns) -> Writes {
        let shapes = WRITERS.iter().flat_map(|&writers| SIZES.map(|size| (writers, size)));
        let rows = shapes.map(|(writers, size)| (writers, size, writes(run, columns, writers, size)));
        Writes { names: columns.iter().map(|column| column.borrow().name()).collect(), rows: rows.collect() }
    }

    fn row(&self, writers: usize, size: usize) -> Option<&Row> {
        self.rows.iter().find(|row| (row.0, row.1) == (writers, size)).map(|row| &row.2)
    }

    /// The number of the column with that name.
    pub fn column(&self, name: &str) -> Option<usize> {
        self.names.iter().position(|other| *other == name)
    }

    /// The cell of a column for so many writers and bytes.
    pub fn place(&self, column: usize, writers: usize, size: usize) -> Option<Place> {
        self.row(writers, size).map(|row| row.places[column])
    }

    fn text(&self, run: &Run, columns: &Columns) -> String {
        let mut rows: Vec<_> = self.rows.iter().map(|row| row.2.cells(run)).collect();
        rows.push(promises(columns));
        let places = self.rows.iter().flat_map(|row| &row.2.places);
        let spread = places.map(|&place| run.spread(place)).fold(0.0, f64::max);
        format!(
            "## Committed writes\n\n\
             Each writer overwrites its own place. With points taking turns all begin at one tail, then each takes one step in turn until all have committed; \
             the others' writers make one write each in turn. After {} writes the log is full: the image is laid out and opened again, outside the timed part. \
             New log blocks are timed with the writes that need them, SQLite's checkpoints too.\n\n",
            table::grouped(LOG_ENTRIES)
        ) + &table::text(&head("", columns), &rows)
            + &format!(
                "The fastest repetition of a cell lies at most {:.0} % below what stands there.\n\n\
                 What this library promises holds for memory that keeps stores of eight bytes whole and in the order made: it flushes no processor cache, \
                 libpmemobj and libpmemlog do; the next section has what flushing costs here. SQLite and LMDB sync to a memory file system, which costs a call \
                 and no device; on a disk they take longer. libpmemlog appends and does not overwrite.\n\n",
                100.0 * spread
            )
    }
}

/// The rows of openings, by log entries.
pub struct Opened {
    rows: Vec<(usize, Row)>,
}

impl Opened {
    fn plan(run: &mut Run, folder: &Path) -> Opened {
        let rows = OPENED.map(|entries| (entries, openings(run, &columns(&folder.join(format!("open-{entries}"))), entries)));
        Opened { rows: rows.into() }
    }

    /// The cell of a column for so many log entries.
    pub fn place(&self, column: usize, entries: usize) -> Option<Place> {
        self.rows.iter().find(|row| row.0 == entries).map(|row| row.1.places[column])
    }

    fn text(&self, run: &Run, columns: &Columns) -> String {
        let rows: Vec<_> = self.rows.iter().map(|row| row.1.cells(run)).collect();
        "## Opening\n\nWhat that many committed writes of 64 bytes left, as after a power loss; SQLite with the log not yet checkpointed, and one row read.\n\n"
            .to_string()
            + &table::text(&head("", columns), &rows)
    }
}

/// The reference of each section: the same work, measured again in turn with
/// that section's cells.
struct References(Vec<Place>);

impl References {
    /// Another section's.
    fn again(&mut self, run: &mut Run, columns: &Columns) -> Place {
        let place = reference(run, columns);
        self.0.push(place);
        place
    }

    /// The least and the greatest.
    fn ends(&self, run: &Run) -> (f64, f64) {
        let values = self.0.iter().map(|&place| run.time(place));
        (values.clone().fold(f64::INFINITY, f64::min), values.fold(0.0, f64::max))
    }

    /// How far the greatest lies above the least, as a part of that.
    fn drift(&self, run: &Run) -> f64 {
        let (least, greatest) = self.ends(run);
        greatest / least - 1.0
    }

    fn text(&self, run: &Run) -> String {
        let (least, greatest) = self.ends(run);
        let all = || self.0.iter().flat_map(|&place| run.values(place)).copied();
        let (fastest, slowest) = (all().fold(f64::INFINITY, f64::min), all().fold(0.0, f64::max));
        let percent = 100.0 * self.drift(run);
        let verdict = match too_far(self.drift(run)) {
            Some(sentence) => sentence,
            None => format!("From section to section it drifted by {percent:.1} % at most."),
        };
        format!(
            "The reference, a write of {SIZE} bytes by {}, is measured again in each section with times, in turn with its cells: {} to {}; \
             over the run its repetitions took {} to {}. {verdict}\n\n",
            First::NAME,
            time(least),
            time(greatest),
            time(fastest),
            time(slowest)
        )
    }
}

/// What is to be said of such a drift if it is too far.
fn too_far(drift: f64) -> Option<String> {
    let percent = 100.0 * drift;
    let sentence =
        || format!("The reference drifted by {percent:.1} %: figures of different sections do not compare; run again on an idle machine.");
    (drift > DRIFT).then(sentence)
}

fn reference_line(run: &Run, place: Place) -> String {
    format!("Reference, write {SIZE} B: {}.\n\n", time(run.time(place)))
}

/// All that the page shows. A section's reference stands with it.
pub struct Page {
    columns: Vec<Shared>,
    references: References,
    writes: (Writes, Place),
    #[cfg(feature = "library")]
    written_back: (WrittenBack, Place),
    #[cfg(feature = "library")]
    serving: (Serving, Place),
    steps: (Row, Place),
    beginnings: (Vec<Row>, Place),
    opened: (Opened, Place),
    read: ([Row; 2], Place),
    points: (Points, Place),
    log: (Log, Place),
    image: (Image, Place),
}

impl Page {
    /// Files are made in the folder.
    pub fn plan(run: &mut Run, folder: &Path) -> Page {
        let columns_of = |name: &str| columns(&folder.join(name));
        let all = columns_of("write");
        let mut references = References(Vec::new());
        let writes = Writes::plan(run, &all);
        let own = writes.place(0, 1, SIZE).expect("the row of the reference");
        references.0.push(own);
        #[cfg(feature = "library")]
        let serving = (Serving::plan(run, |_, points, size| writes.row(points, size).unwrap().clone()), references.again(run, &all));
        #[cfg(feature = "library")]
        let written_back = (WrittenBack::plan(run, &writes), references.again(run, &all));
        let steps = (steps(run), references.again(run, &all));
        let beginnings = (beginnings(run), references.again(run, &all));
        let opened = (Opened::plan(run, folder), references.again(run, &all));
        let of_read = columns_of("read");
        let read = ([reads(run, &of_read), reads_in_steps(run, &of_read)], references.again(run, &all));
        let points = (Points::plan(run, &all, &writes), references.again(run, &all));
        let log = (Log::plan(run), references.again(run, &all));
        let image = (Image::plan(run, &writes, &opened.0), references.again(run, &all));
        Page {
            columns: all,
            references,
            writes: (writes, own),
            #[cfg(feature = "library")]
            written_back,
            #[cfg(feature = "library")]
            serving,
            steps,
            beginnings,
            opened,
            read,
            points,
            log,
            image,
        }
    }

    /// The page below its head, as Markdown.
    pub fn text(&self, run: &Run, repetitions: usize) -> String {
        let reference = |place| reference_line(run, place);
        let mut text = preface(repetitions) + &self.references.text(run);
        text += &(self.writes.0.text(run, &self.columns) + &reference(self.writes.1));
        #[cfg(feature = "library")]
        {
            text += &(self.written_back.0.text(run) + &reference(self.written_back.1));
            text += &(self.serving.0.text(run, &self.columns) + &reference(self.serving.1));
        }
        text += &(steps_text(run, &self.steps.0) + &reference(self.steps.1));
        text += &(beginning::text(run, &self.beginnings.0) + &reference(self.beginnings.1));
        text += &(self.opened.0.text(run, &self.columns) + &reference(self.opened.1));
        text += "## Reading\n\nAt once, and by this library and the second implementation in steps: its beginning, 128 that copy a word and one that answers; the others have no steps.\n\n";
        text += &table::text(&head("", &self.columns), &self.read.0.each_ref().map(|row| row.cells(run)));
        text += &reference(self.read.1);
        text += &words_text(&self.columns);
        text += &format!("## How the cost grows\n\nOf {}. `growth.svg` shows the three tables:\n\n", First::NAME);
        text += "![Three plots: times over the points, over the log entries and over the blocks of the image](growth.svg)\n\n";
        text += &(self.points.0.text(run) + &reference(self.points.1));
        text += &(self.log.0.text(run) + &reference(self.log.1));
        text += &(self.image.0.text(run) + &reference(self.image.1));
        text
    }

    /// The growth tables as a picture.
    pub fn svg(&self, run: &Run) -> String {
        svg::text(&[self.points.0.panel(run), self.log.0.panel(run), self.image.0.panel(run)])
    }

    /// The README's table: rows and columns of the page.
    pub fn table(&self, run: &Run) -> String {
        let row = |writers, size| self.writes.0.row(writers, size).unwrap();
        let opened = &self.opened.0.rows.iter().find(|row| row.0 == 1_000).unwrap().1;
        let rows = vec![
            row(1, 64),
            row(1, 1_024),
            row(32, 64),
            #[cfg(feature = "library")]
            self.serving.0.row(32, 64).unwrap(),
            opened,
            &self.read.0[0],
            &self.read.0[1],
        ];
        short_table(run, &self.columns, &rows)
    }

    /// What is to be said if the run drifted too far.
    pub fn drifted(&self, run: &Run) -> Option<String> {
        too_far(self.references.drift(run))
    }
}

/// What holds of all tables.
fn preface(repetitions: usize) -> String {
    format!(
        "Times are lower quartiles of {repetitions} repetitions of at least {} ms each, by {CLOCK}, since other work on a machine makes some slower and \
         none faster; in brackets the ratio, {} = 1. In each repetition all cells of all tables take turns, with the same bytes, so that a machine \
         that slows down slows all of them alike; at its turn a cell works once before it is timed, which fills the caches. \
         Where two tables show the same work, it is one measurement that stands in both.\n\n",
        LEAST.as_millis(),
        First::NAME
    )
}

fn steps_text(run: &Run, row: &Row) -> String {
    let head: Vec<String> = std::iter::once(String::new()).chain(step_names()).collect();
    let fills = |place: Place| time(128.0 * run.time(place));
    "## One step\n\nThe tests of a record, 1.6 KB, and one word filled from a text of 512 bytes.\n\n".to_string()
        + &table::text(&head, &[row.cells(run)])
        + &format!(
            "A write of two whole blocks, 1,024 bytes, is 128 such steps: {} here, {} by the port behind `&mut`, \
             which is about the least for steps of one word that test the record each time.\n\n",
            fills(row.places[0]),
            fills(row.places[row.places.len() - 1])
        )
}

fn words_text(columns: &Columns) -> String {
    let shapes = [1, 32].iter().flat_map(|&writers| SIZES.map(|size| (writers, size)));
    let rows: Vec<_> = shapes.map(|(writers, size)| words_stored(columns, writers, size)).collect();
    format!(
        "## Words stored for each byte written\n\n\
         Words of eight bytes, over {} writes, new log blocks included; for SQLite and LMDB what the process wrote to files. \
         One word for eight bytes, 0.125, is the least. – where it cannot be counted.\n\n",
        table::grouped(LOG_ENTRIES)
    ) + &table::text(&head("bytes a write", columns), &rows)
}

/// A table of those rows and the promises, without the columns that are left
/// out.
fn short_table(run: &Run, columns: &Columns, rows: &[&Row]) -> String {
    let kept: Vec<bool> = std::iter::once(true).chain(columns.iter().map(is_kept)).collect();
    let thin = |cells: Vec<String>| cells.into_iter().zip(&kept).filter(|(_, kept)| **kept).map(|(cell, _)| cell).collect::<Vec<_>>();
    let rows: Vec<_> = rows.iter().map(|row| row.cells(run)).chain([promises(columns)]).map(thin).collect();
    table::text(&thin(head("", columns)), &rows).trim_end().to_string() + "\n"
}

/// The columns of the README's table.
fn kept_columns(folder: &Path) -> Vec<Shared> {
    let mut set = columns(folder);
    set.retain(is_kept);
    set
}

/// The README's table alone, measured with only its own columns.
pub fn short(run: &mut Run, folder: &Path, repetitions: usize) -> String {
    let set = |name: &str| kept_columns(&folder.join(name));
    let all = set("write");
    let of_read = set("read");
    let mut rows = vec![writes(run, &all, 1, 64), writes(run, &all, 1, 1_024), writes(run, &all, 32, 64)];
    #[cfg(feature = "library")]
    rows.push(serving::row(run, &rows[2], 32, 64));
    rows.extend([openings(run, &set("open"), 1_000), reads(run, &of_read), reads_in_steps(run, &of_read)]);
    run.measure(repetitions);
    short_table(run, &all, &rows.iter().collect::<Vec<_>>())
}

/// The section on serving alone, with the columns of the README's table.
#[cfg(feature = "library")]
pub fn served(run: &mut Run, folder: &Path, repetitions: usize) -> String {
    let all = kept_columns(&folder.join("write"));
    let serving = Serving::plan(run, |run, points, size| writes(run, &all, points, size));
    run.measure(repetitions);
    serving.text(run, &all)
}
