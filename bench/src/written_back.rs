//! This library with each stored word written back and fenced, as a board with
//! a cache in front of the memory needs it.

use crate::column::*;
use crate::library::Library;
use crate::measure::*;
use crate::page::Writes;
use crate::rows::*;
use crate::shared;
use crate::store::Turns;
use crate::table::{self, number};

pub struct WrittenBack {
    instruction: &'static str,
    rows: Vec<Size>,
}

/// Writes of one size: by this library without and with writing back, the
/// lines written back in a write, and by libpmemobj.
struct Size {
    size: usize,
    plain: Place,
    written_back: Place,
    lines: f64,
    pmemobj: Option<Place>,
}

impl WrittenBack {
    /// What the section on committed writes measures stands here too.
    pub fn plan(run: &mut Run, writes: &Writes) -> WrittenBack {
        let (store, instruction) = Library::written_back(1_024);
        let column = shared(Turns::of(store));
        let rows = SIZES.map(|size| {
            column.borrow_mut().fresh(1);
            column.borrow_mut().rounds(LOG_ENTRIES, &mut text_of(size));
            let words = column.borrow().bytes_stored().unwrap() as f64 / 8.0;
            Size {
                size,
                plain: writes.place(0, 1, size).unwrap(),
                written_back: write(run, &column, 1, size, LOG_ENTRIES),
                lines: words / LOG_ENTRIES as f64,
                pmemobj: writes.column("libpmemobj").and_then(|column| writes.place(column, 1, size)),
            }
        });
        WrittenBack { instruction, rows: rows.into() }
    }

    pub fn text(&self, run: &Run) -> String {
        let mut text = format!(
            "## With each word written back\n\n\
             As a board with a cache in front of the memory needs it: after each step that answers Stored or Committed, before the next call, \
             the stored word's line is written back by `{}`, the first of clwb, clflushopt and clflush that this processor has, and `sfence` waits for it. \
             A line has eight words and is written back for each. The image lies in ordinary memory (DRAM): this shows what the instructions and \
             the loss of the cached line cost, not a device's time. In brackets the ratio to the plain write, which stands above, as libpmemobj's does.\n\n",
            self.instruction
        );
        let pmemobj = self.rows[0].pmemobj.is_some();
        let mut head = vec!["", "plain", "written back", "lines written back a write"];
        head.extend(pmemobj.then_some("libpmemobj"));
        let rows: Vec<_> = self.rows.iter().map(|row| row.cells(run)).collect();
        text += &table::text(&head.into_iter().map(String::from).collect::<Vec<_>>(), &rows);
        let row = self.rows.iter().find(|row| row.size == SIZE).unwrap();
        if let Some(place) = row.pmemobj {
            text += &format!(
                "libpmemobj writes back too, several lines before it waits, where this library waits after each word: \
                 a write of {SIZE} bytes, written back, takes {} times as long here as there.\n\n",
                number(run.time(row.written_back) / run.time(place))
            );
        }
        text
    }
}

impl Size {
    fn cells(&self, run: &Run) -> Vec<String> {
        let plain = run.time(self.plain);
        let cell = |place: Place| table::with_ratio(table::time(run.time(place)), run.time(place), plain);
        let label = format!("write {} B", table::grouped(self.size));
        let mut cells = vec![label, cell(self.plain), cell(self.written_back), number(self.lines)];
        cells.extend(self.pmemobj.map(cell));
        cells
    }
}
