//! Beginnings on images of 1,024 blocks, of which different ones are taken:
//! what the search for free blocks costs.

use crate::column::text_of;
use crate::measure::*;
use crate::rows::Row;
use crate::second::Second;
use crate::store::*;
use crate::table;
use crate::First;
use ::second::random::Random;

const BLOCKS: usize = 1_024;
/// The session that leaves the ordinary map.
const POINTS: usize = 8;
const WRITES: usize = 1_000;

/// Which blocks are taken.
#[derive(Clone, Copy)]
enum Taken {
    Nothing,
    EveryOther,
    AllButFirst,
    AllButLast,
    BySession,
}

use Taken::*;

const MAPS: [(Taken, &str); 5] = [
    (Nothing, "empty"),
    (EveryOther, "checkered"),
    (AllButFirst, "nearly full, free at the start"),
    (AllButLast, "nearly full, free at the end"),
    (BySession, "ordinary"),
];

impl Taken {
    /// Blocks that are taken beside those of a laid-out image; the ordinary map
    /// has its own.
    fn blocks(self) -> Vec<usize> {
        match self {
            Nothing | BySession => Vec::new(),
            EveryOther => (2..BLOCKS - 3).step_by(2).collect(),
            AllButFirst => (5..BLOCKS).collect(),
            AllButLast => (2..BLOCKS - 3).collect(),
        }
    }
}

/// A beginning: on which map, and how many blocks its write spans.
#[derive(Clone)]
pub struct Beginning {
    taken: Taken,
    span: usize,
    pub label: String,
}

impl Beginning {
    pub fn all() -> Vec<Beginning> {
        let spans = [(1, "1 block"), (3, "3 blocks")];
        let of = |(taken, name)| spans.map(|(span, blocks)| Beginning { taken, span, label: format!("begin, {name}, {blocks}") });
        MAPS.into_iter().flat_map(of).collect()
    }

    /// The one with that label.
    pub fn named(label: &str) -> Option<Beginning> {
        Beginning::all().into_iter().find(|beginning| beginning.label == label)
    }

    /// Where its write goes, and the bytes.
    fn write(&self) -> (usize, Vec<u8>) {
        match self.span {
            1 => (0, text_of(512)),
            _ => (256, text_of(1_024)),
        }
    }
}

/// A store in which the same beginning can be made again and again.
pub struct Again<S> {
    pub store: S,
    pub point: usize,
    pub map: Map,
    pub offset: usize,
    pub text: Vec<u8>,
}

impl<S: Store> Again<S> {
    pub fn of(beginning: &Beginning) -> Again<S> {
        let (store, point) = match beginning.taken {
            BySession => after_session(),
            _ => (S::with_entries(0, 64), 0),
        };
        let mut map = store.map();
        beginning.taken.blocks().into_iter().for_each(|block| map[block / 64] |= 1 << (block % 64));
        let (offset, text) = beginning.write();
        Again { store, point, map, offset, text }
    }

    /// Everything as before the last beginning, if there was one; then another.
    fn begin(&mut self) {
        self.store.put_back(self.point, &self.map);
        self.store.begin(self.point, self.offset, &self.text);
    }
}

/// What a session of mixed writes leaves, and a point that has no write under
/// way. Points take turns: one finishes its write and begins another, while the
/// others have theirs under way.
fn after_session<S: Store>() -> (S, usize) {
    let mut store = S::new(BLOCKS);
    let mut random = Random::new(1);
    (0..POINTS).for_each(|point| store.join(point));
    for i in 0..WRITES + POINTS - 1 {
        if i >= POINTS {
            store.finish(i % POINTS);
        }
        let (offset, text) = drawn(&mut random);
        store.begin(i % POINTS, offset, &text);
    }
    let last = (WRITES - 1) % POINTS;
    store.finish(last);
    (store, last)
}

/// A write at a drawn place: of 100 some 70 span one block, 20 two and 10
/// three.
fn drawn(random: &mut Random) -> (usize, Vec<u8>) {
    let (span, size) = match random.below(100) {
        0..70 => (1, 256),
        70..90 => (2, 512),
        _ => (3, 1_024),
    };
    (512 * random.below(256 - span + 1) + 256, text_of(size))
}

/// The implementations, in the order of a row's cells.
pub fn names() -> Vec<String> {
    let mut names = vec![First::NAME];
    if First::NAME != Second::NAME {
        names.push(Second::NAME);
    }
    names.into_iter().map(String::from).collect()
}

/// A row for each beginning.
pub fn beginnings(run: &mut Run) -> Vec<Row> {
    let row = |beginning: Beginning| {
        let mut places = vec![begin_again::<First>(run, &beginning)];
        if First::NAME != Second::NAME {
            places.push(begin_again::<Second>(run, &beginning));
        }
        Row { label: beginning.label, places }
    };
    Beginning::all().into_iter().map(row).collect()
}

fn begin_again<S: Store + 'static>(run: &mut Run, beginning: &Beginning) -> Place {
    let mut again = Again::<S>::of(beginning);
    run.add(move || timed_times(100, || again.begin()))
}

/// The section.
pub fn text(run: &Run, rows: &[Row]) -> String {
    let head: Vec<String> = std::iter::once(String::new()).chain(names()).collect();
    let cells: Vec<_> = rows.iter().map(|row| row.cells(run)).collect();
    format!(
        "## Beginning\n\n\
         What the search for free blocks costs, on an image of {} blocks: a write of 512 bytes is begun that spans one block, or one of 1,024 bytes \
         that spans three, by a point that has caught up. Empty: laid out, nothing written. Checkered: every other block is taken, the last three \
         are free. Nearly full: all blocks are taken but three side by side. Ordinary: what {} writes of {POINTS} points leave, of which some 70 % \
         span one block, 20 % two and 10 % three; {} other writes are under way. Before each beginning the map of taken blocks is put back and \
         the point made idle, which is timed with it: 128 bytes are copied.\n\n",
        table::grouped(BLOCKS),
        table::grouped(WRITES),
        POINTS - 1
    ) + &table::text(&head, &cells)
}
