//! This library as a store, through C: `library.c` makes the calls of
//! `include/store.h`.

use crate::store::*;

extern "C" {
    fn bench_shared_size() -> usize;
    fn bench_point_size() -> usize;
    fn bench_lay_out(image: *mut u64, words: usize) -> u32;
    fn bench_open(image: *const u64, words: usize, scratch: *mut u16, shared: *mut u64, entries: *mut u32) -> u32;
    fn bench_join(image: *const u64, words: usize, shared: *mut u64, points: *mut u64, number: u32) -> u32;
    fn bench_leave(image: *const u64, words: usize, shared: *mut u64, points: *mut u64, number: u32) -> u32;
    fn bench_begin(
        image: *const u64,
        words: usize,
        shared: *mut u64,
        points: *mut u64,
        number: u32,
        offset: usize,
        text: *const u8,
        length: usize,
    ) -> u32;
    fn bench_begin_read(
        image: *const u64,
        words: usize,
        shared: *mut u64,
        points: *mut u64,
        number: u32,
        offset: usize,
        length: usize,
    ) -> u32;
    fn bench_read_in_steps(
        image: *mut u64,
        words: usize,
        shared: *mut u64,
        points: *mut u64,
        number: u32,
        offset: usize,
        buffer: *mut u8,
        length: usize,
    ) -> u32;
    fn bench_step(image: *mut u64, words: usize, shared: *mut u64, points: *mut u64, number: u32) -> u32;
    fn bench_rewind(points: *mut u64, number: u32);
    fn bench_map(shared: *const u64, map: *mut u64);
    fn bench_put_back(shared: *mut u64, points: *mut u64, number: u32, map: *const u64);
    fn bench_fill_block(image: *mut u64, words: usize, shared: *mut u64, points: *mut u64, times: usize) -> u32;
    fn bench_turns(
        image: *mut u64,
        words: usize,
        shared: *mut u64,
        points: *mut u64,
        first: usize,
        count: usize,
        text: *const u8,
        length: usize,
        tally: *mut u64,
        how: u32,
    ) -> u32;
    fn bench_write_back() -> u32;
    fn bench_read(
        image: *const u64,
        words: usize,
        shared: *const u64,
        points: *const u64,
        number: u32,
        offset: usize,
        buffer: *mut u8,
        length: usize,
        count: *mut u32,
    ) -> u32;
}

/// A block of the image, at an address that its size divides: eight words are
/// a cache line wherever an image is put.
#[repr(C, align(512))]
#[derive(Clone, Copy)]
pub struct Block([u64; 64]);

impl Block {
    /// Blocks that hold that many bytes, all touched.
    pub fn with(bytes: usize) -> Vec<Block> {
        vec![Block([1; 64]); bytes.div_ceil(512)]
    }
}

/// The records are memory of the right size and of eight bytes' alignment.
pub struct Library {
    image: Vec<Block>,
    words: usize,
    scratch: Vec<u16>,
    pub shared: Vec<u64>,
    pub points: Vec<u64>,
    tally: Tally,
    /// How `turns` makes stored words lasting, as `library.c` numbers it.
    how: u32,
}

impl Library {
    /// The image as it is lent: its words, and how many.
    fn image(&self) -> (*const u64, usize) {
        (self.image.as_ptr().cast(), self.words)
    }

    /// The image as it is lent to be written.
    pub fn image_to_write(&mut self) -> (*mut u64, usize) {
        (self.image.as_mut_ptr().cast(), self.words)
    }

    /// With each stored word's line written back and fenced, and the name of
    /// the instruction that the processor has for it.
    pub fn written_back(blocks: usize) -> (Library, &'static str) {
        // SAFETY: it answers a number.
        let how = unsafe { bench_write_back() };
        (Library { how, ..Library::new(blocks) }, ["", "clflush", "clflushopt", "clwb"][how as usize])
    }
}

/// Words that hold that many bytes.
fn words_for(bytes: usize) -> Vec<u64> {
    vec![0; bytes.div_ceil(8)]
}

pub fn accepted(refusal: u32) {
    assert_eq!(refusal, 0, "a call is refused");
}

impl Store for Library {
    const NAME: &'static str = "this library";
    const PROMISE: &'static str = "committed writes whole, in order: proved";

    fn new(blocks: usize) -> Library {
        // SAFETY: both answer a number.
        let (shared, point) = unsafe { (bench_shared_size(), bench_point_size()) };
        let mut store = Library {
            image: Block::with(512 * blocks),
            words: 64 * blocks,
            scratch: vec![0; 1_024],
            shared: words_for(shared),
            points: words_for(32 * point),
            tally: Tally::default(),
            how: 0,
        };
        store.lay_out();
        store
    }

    fn lay_out(&mut self) {
        let (image, words) = self.image_to_write();
        // SAFETY: here and below the C functions get memory of the sizes that they are told.
        accepted(unsafe { bench_lay_out(image, words) });
        self.open();
        self.tally = Tally::default();
    }

    fn restore(&mut self, from: &Library) {
        self.image.copy_from_slice(&from.image);
        self.shared.copy_from_slice(&from.shared);
        self.points.copy_from_slice(&from.points);
    }

    fn open(&mut self) -> usize {
        let mut entries = 0;
        let (image, words) = self.image();
        accepted(unsafe { bench_open(image, words, self.scratch.as_mut_ptr(), self.shared.as_mut_ptr(), &mut entries) });
        entries as usize
    }

    fn join(&mut self, number: usize) {
        let (image, words) = self.image();
        accepted(unsafe { bench_join(image, words, self.shared.as_mut_ptr(), self.points.as_mut_ptr(), number as u32) });
    }

    fn leave(&mut self, number: usize) {
        let (image, words) = self.image();
        accepted(unsafe { bench_leave(image, words, self.shared.as_mut_ptr(), self.points.as_mut_ptr(), number as u32) });
    }

    fn begin(&mut self, number: usize, offset: usize, text: &[u8]) {
        let (image, words) = self.image();
        let (shared, points) = (self.shared.as_mut_ptr(), self.points.as_mut_ptr());
        accepted(unsafe { bench_begin(image, words, shared, points, number as u32, offset, text.as_ptr(), text.len()) });
    }

    fn step(&mut self, number: usize) {
        let (image, words) = self.image_to_write();
        let (shared, points) = (self.shared.as_mut_ptr(), self.points.as_mut_ptr());
        let kind = unsafe { bench_step(image, words, shared, points, number as u32) } as usize;
        assert!(kind != REFUSED, "a step is refused");
        self.tally[kind] += 1;
    }

    fn rewind(&mut self, number: usize) {
        unsafe { bench_rewind(self.points.as_mut_ptr(), number as u32) }
    }

    fn fill_block(&mut self, times: usize) {
        let (image, words) = self.image_to_write();
        accepted(unsafe { bench_fill_block(image, words, self.shared.as_mut_ptr(), self.points.as_mut_ptr(), times) });
    }

    fn turns(&mut self, first: usize, count: usize, text: &[u8]) {
        let (image, words) = self.image_to_write();
        let (shared, points) = (self.shared.as_mut_ptr(), self.points.as_mut_ptr());
        let (tally, how) = (self.tally.as_mut_ptr(), self.how);
        accepted(unsafe { bench_turns(image, words, shared, points, first, count, text.as_ptr(), text.len(), tally, how) });
    }

    fn read(&self, number: usize, offset: usize, buffer: &mut [u8]) -> usize {
        let mut count = 0;
        let (image, words) = self.image();
        let (shared, points) = (self.shared.as_ptr(), self.points.as_ptr());
        let (lent, length) = (buffer.as_mut_ptr(), buffer.len());
        accepted(unsafe { bench_read(image, words, shared, points, number as u32, offset, lent, length, &mut count) });
        count as usize
    }

    fn begin_read(&mut self, number: usize, offset: usize, size: usize) {
        let (image, words) = self.image();
        let (shared, points) = (self.shared.as_mut_ptr(), self.points.as_mut_ptr());
        accepted(unsafe { bench_begin_read(image, words, shared, points, number as u32, offset, size) });
    }

    fn read_in_steps(&mut self, number: usize, offset: usize, buffer: &mut [u8]) {
        assert_eq!(buffer.len(), 1_024, "the room that a step is lent");
        let (image, words) = self.image_to_write();
        let (shared, points) = (self.shared.as_mut_ptr(), self.points.as_mut_ptr());
        let (lent, length) = (buffer.as_mut_ptr(), buffer.len());
        accepted(unsafe { bench_read_in_steps(image, words, shared, points, number as u32, offset, lent, length) });
    }

    fn tally(&self) -> Tally {
        self.tally
    }

    fn map(&self) -> Map {
        let mut map = [0; 16];
        unsafe { bench_map(self.shared.as_ptr(), map.as_mut_ptr()) };
        map
    }

    fn put_back(&mut self, number: usize, map: &Map) {
        unsafe { bench_put_back(self.shared.as_mut_ptr(), self.points.as_mut_ptr(), number as u32, map.as_ptr()) }
    }
}
