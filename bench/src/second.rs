//! The second implementation as a store.

use crate::column::APART;
use crate::store::*;
use ::second::calls;
use ::second::image::lay_out;
use ::second::open::open;
use ::second::reading::begin_read;
use ::second::record::{Phase, Record, Shared};
use ::second::step::{step, Answer};

pub struct Second {
    image: Vec<u64>,
    scratch: Vec<u16>,
    shared: Shared,
    points: Vec<Record>,
    tally: Tally,
}

fn kind(answer: &Answer) -> usize {
    match answer {
        Answer::Stored => STORED,
        Answer::Moved => MOVED,
        Answer::Extending => EXTENDING,
        Answer::Committed(_) => COMMITTED,
        Answer::Copied => COPIED,
        Answer::Read(_) => BYTES,
        Answer::Refused(why) => panic!("a step is refused: {why:?}"),
    }
}

impl Second {
    /// A step of a point, tallied: its answer.
    fn answer(&mut self, number: usize) -> Answer {
        let (answer, shared, record) = step(&mut self.image, &self.shared, &self.points[number]);
        self.shared = shared;
        self.points[number] = record;
        self.tally[kind(&answer)] += 1;
        answer
    }
}

impl Store for Second {
    const NAME: &'static str = "second implementation";
    const PROMISE: &'static str = "committed writes whole, in order: tested";

    fn new(blocks: usize) -> Second {
        let mut store = Second {
            image: vec![1; 64 * blocks],
            scratch: vec![0; 1_024],
            shared: Shared::zero(),
            points: vec![Record::zero(); 32],
            tally: Tally::default(),
        };
        store.lay_out();
        store
    }

    fn lay_out(&mut self) {
        lay_out(&mut self.image).unwrap();
        self.open();
        self.tally = Tally::default();
    }

    fn restore(&mut self, from: &Second) {
        self.image.copy_from_slice(&from.image);
        self.shared.clone_from(&from.shared);
        self.points.clone_from_slice(&from.points);
    }

    fn open(&mut self) -> usize {
        let opened = open(&self.image, &mut self.scratch).unwrap();
        self.shared = opened.shared;
        opened.entries
    }

    fn join(&mut self, number: usize) {
        (self.shared, self.points[number]) = calls::join(&self.image, &self.shared, number).unwrap();
    }

    fn leave(&mut self, number: usize) {
        self.shared = calls::leave(&self.image, &self.shared, &self.points[number]).unwrap();
    }

    fn begin(&mut self, number: usize, offset: usize, text: &[u8]) {
        let record = &self.points[number];
        (self.shared, self.points[number]) = calls::begin(&self.image, &self.shared, record, offset, text).unwrap();
    }

    fn step(&mut self, number: usize) {
        self.answer(number);
    }

    fn rewind(&mut self, number: usize) {
        self.points[number].write.position = 0;
    }

    fn turns(&mut self, first: usize, count: usize, text: &[u8]) {
        for number in first..first + count {
            self.begin(number, APART * number, text);
        }
        let end = self.tally[COMMITTED] + count as u64;
        while self.tally[COMMITTED] < end {
            for number in first..first + count {
                if !self.points[number].is_idle() {
                    self.step(number);
                }
            }
        }
    }

    fn read(&self, number: usize, offset: usize, buffer: &mut [u8]) -> usize {
        calls::read(&self.image, &self.shared, &self.points[number], offset, buffer).unwrap()
    }

    fn begin_read(&mut self, number: usize, offset: usize, size: usize) {
        (self.shared, self.points[number]) =
            begin_read(&self.image, &self.shared, &self.points[number], offset, size).unwrap();
    }

    fn read_in_steps(&mut self, number: usize, offset: usize, buffer: &mut [u8]) {
        self.begin_read(number, offset, buffer.len());
        loop {
            if let Answer::Read(bytes) = self.answer(number) {
                return buffer.copy_from_slice(&bytes);
            }
        }
    }

    fn tally(&self) -> Tally {
        self.tally
    }

    fn map(&self) -> Map {
        self.shared.map
    }

    fn put_back(&mut self, number: usize, map: &Map) {
        self.shared.map = *map;
        self.points[number].write.phase = Phase::Idle;
    }
}
