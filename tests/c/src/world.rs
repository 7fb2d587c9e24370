//! An image, its shared record and some points' records, each held twice:
//! one lent to C, one to the second implementation. Every call is made on
//! both, and then the answers and all memory must agree.

use std::fmt::Debug;

use second::random::Random;
use second::tally::Tally;

use crate::c::*;
use crate::expected::{self, no_point, no_shared};
use crate::lent::Both;
use crate::table::*;

/// Places for points' records; any point may join at any place.
pub const PLACES: usize = 5;

/// With those that only lists have.
pub const LISTABLE: usize = 40;

/// Elements beyond what 32 bits can count.
pub const WIDE: usize = 1 << 32;

pub struct World {
    pub random: Random,
    pub image: Both<u64>,
    pub shared: Both<Shared>,
    pub points: Vec<Both<Point>>,
    /// Whether more elements than 32 bits can count are there to be lent.
    pub is_wide: bool,
    pub calls: usize,
    /// The last call and its numbers.
    pub last: (&'static str, [usize; 4]),
    pub tally: Tally,
}

/// Where two records differ.
pub fn difference(there: &Point, here: &Point) -> String {
    if there.head != here.head {
        return format!("C {:?}, here {:?}", there.head, here.head);
    }
    if let Some(v) = (0..256).find(|&v| there.table[v] != here.table[v]) {
        return format!("table {v}: C {}, here {}", there.table[v], here.table[v]);
    }
    let i = (0..1_024).find(|&i| there.text[i] != here.text[i]).unwrap_or(0);
    format!("text {i}: C {}, here {}", there.text[i], here.text[i])
}

impl World {
    pub fn new(mut random: Random, content: &[u64], is_wide: bool) -> World {
        let image = if is_wide {
            Both::reserved(content, WIDE + content.len())
        } else {
            Both::new(&mut random, content)
        };
        let shared = Both::new(&mut random, &[no_shared()]);
        let points = (0..LISTABLE).map(|_| Both::new(&mut random, &[no_point()])).collect();
        World {
            random,
            image,
            shared,
            points,
            is_wide,
            calls: 0,
            last: ("", [0; 4]),
            tally: Tally::default(),
        }
    }

    pub fn image(&self) -> &[u64] {
        self.image.here.all()
    }

    pub fn shared(&self) -> &Shared {
        &self.shared.here.all()[0]
    }

    pub fn point(&self, p: usize) -> &Point {
        &self.points[p].here.all()[0]
    }

    pub fn set_word(&mut self, place: usize, value: u64) {
        self.image.change(place, |word| *word = value);
    }

    /// Puts another image into the same memory.
    pub fn put(&mut self, content: &[u64]) {
        self.image.here.part_mut(content.len()).copy_from_slice(content);
        self.image.there.part_mut(content.len()).copy_from_slice(content);
    }

    pub fn alter_shared(&mut self, change: impl FnOnce(&mut Shared)) {
        self.shared.change(0, change);
    }

    pub fn alter(&mut self, p: usize, change: impl FnOnce(&mut Point)) {
        self.points[p].change(0, change);
    }

    /// Memory that one call is lent; where there is more room than content it
    /// is not guarded.
    pub fn both<T: Copy + PartialEq + Debug>(&mut self, content: &[T], room: usize) -> Both<T> {
        if room > content.len() {
            Both::reserved(content, room)
        } else {
            Both::new(&mut self.random, content)
        }
    }

    /// What C is lent of the world.
    pub fn there(&self, p: usize) -> (*mut u64, *mut Shared, *mut Point) {
        (self.image.there.pointer(), self.shared.there.pointer(), self.points[p].there.pointer())
    }

    /// What the second implementation is lent.
    pub fn here(&mut self, words: usize, p: usize) -> (&mut [u64], &mut Shared, &mut Point) {
        let shared = &mut self.shared.here.all_mut()[0];
        (self.image.here.part_mut(words), shared, &mut self.points[p].here.all_mut()[0])
    }

    /// After a call: answers and memory agree.
    pub fn agree<A: PartialEq + Debug>(&mut self, there: A, here: A) -> Result<(), String> {
        self.calls += 1;
        if there != here {
            return Err(format!("C answers {there:?}, here {here:?}"));
        }
        self.shared.agree("shared record")?;
        for (p, point) in self.points.iter().enumerate().take(PLACES) {
            point.agree_by(&format!("record at place {p}"), difference)?;
        }
        self.image.agree("image")
    }
}

/// The calls of the header. `words` is how much of the image is lent, `p` the
/// place of the point's record.
impl World {
    pub fn lay_out(&mut self, words: usize) -> Result<u32, String> {
        self.last = ("lay_out", [words, 0, 0, 0]);
        // SAFETY: here and below, memory of the sizes that are said is lent.
        let there = unsafe { shim_lay_out(self.there(0).0, words) };
        let here = expected::lay_out(self.here(words, 0).0);
        self.agree(there, here)?;
        self.count_image(words);
        self.tally.answered("lay_out", here);
        Ok(here)
    }

    /// A scratch of so many places, filled with anything.
    fn scratch(&mut self, places: usize) -> Both<u16> {
        let salt = self.random.any() as u16;
        let known = places.min(3_000) as u16;
        let content: Vec<u16> = (0..known).map(|i| salt.wrapping_mul(i + 1)).collect();
        self.tally.input_if(places == 0, "a scratch of 0");
        self.tally.input_if(places > 1_024 && places < WIDE, "a longer scratch");
        self.tally.input_if(places >= WIDE, "a scratch beyond 32 bits");
        self.both(&content, places)
    }

    pub fn open(&mut self, words: usize, places: usize) -> Result<Opened, String> {
        self.last = ("open", [words, places, 0, 0]);
        let mut scratch = self.scratch(places);
        let (image, shared, _) = self.there(0);
        let there = unsafe { shim_open(image, words, scratch.there.pointer(), places, shared) };
        let (image, shared, _) = self.here(words, 0);
        let here = expected::open(image, scratch.here.part_mut(places), shared);
        self.agree(there, here)?;
        scratch.agree("scratch")?;
        self.count_image(words);
        self.tally.answered("open", here.refused);
        Ok(here)
    }

    pub fn list(&mut self, words: usize, places: usize) -> Result<Opened, String> {
        self.last = ("list", [words, places, 0, 0]);
        let mut scratch = self.scratch(places);
        let mut rows = Both::new(&mut self.random, &[7u16; 256]);
        let (image, lent) = (self.there(0).0, scratch.there.pointer());
        let there = unsafe { shim_list(image, words, lent, places, rows.there.pointer()) };
        let image = self.here(words, 0).0;
        let here = expected::list(image, scratch.here.part_mut(places), rows.here.all_mut());
        self.agree(there, here)?;
        scratch.agree("scratch")?;
        rows.agree("rows")?;
        self.count_image(words);
        self.tally.answered("list", here.refused);
        Ok(here)
    }

    pub fn join(&mut self, words: usize, p: usize, number: u32) -> Result<u32, String> {
        self.last = ("join", [words, p, number as usize, 0]);
        let (image, shared, point) = self.there(p);
        let there = unsafe { shim_join(image, words, shared, number, point) };
        let (image, shared, point) = self.here(words, p);
        let here = expected::join(image, shared, number, point);
        self.agree(there, here)?;
        self.count_image(words);
        self.tally.answered("join", here);
        Ok(here)
    }

    /// Begins a write of `size` bytes: those of the text, then zeros.
    pub fn begin(
        &mut self,
        words: usize,
        p: usize,
        offset: usize,
        text: &[u8],
        size: usize,
    ) -> Result<u32, String> {
        self.last = ("begin", [words, p, offset, size]);
        let before = self.point(p).head;
        let bytes = self.both(text, size);
        let (image, shared, point) = self.there(p);
        let there = unsafe { shim_begin(image, words, shared, point, offset, bytes.there.pointer(), size) };
        let (image, shared, point) = self.here(words, p);
        let here = expected::begin(image, shared, point, offset, bytes.here.part(size));
        self.agree(there, here)?;
        bytes.agree("bytes")?;
        self.tally.input_if(size == 0, "0 bytes to write");
        self.tally.input_if(size >= WIDE, "bytes to write beyond 32 bits");
        self.tally.input_if(offset >= WIDE, "an offset to write at beyond 32 bits");
        self.count("begin", words, &before, here);
        Ok(here)
    }

    pub fn begin_read(&mut self, words: usize, p: usize, offset: usize, size: usize) -> Result<u32, String> {
        self.last = ("begin_read", [words, p, offset, size]);
        let before = self.point(p).head;
        let (image, shared, point) = self.there(p);
        let there = unsafe { shim_begin_read(image, words, shared, point, offset, size) };
        let (image, shared, point) = self.here(words, p);
        let here = expected::begin_read(image, shared, point, offset, size);
        self.agree(there, here)?;
        self.tally.input_if(size == 0, "a range of 0");
        self.tally.input_if(size >= WIDE, "a range beyond 32 bits");
        self.tally.input_if(offset >= WIDE, "a range that begins beyond 32 bits");
        self.count("begin_read", words, &before, here);
        Ok(here)
    }

    /// A step, lent room for a read's bytes with anything in it.
    pub fn step(&mut self, words: usize, p: usize) -> Result<Answer, String> {
        self.last = ("step", [words, p, 0, 0]);
        let before = self.point(p).head;
        let salt = self.random.any();
        let content: [u8; 1_024] = std::array::from_fn(|i| (salt >> (i % 53)) as u8);
        let mut bytes = Both::new(&mut self.random, &content);
        let (image, shared, point) = self.there(p);
        let there = unsafe { shim_step(image, words, shared, point, bytes.there.pointer()) };
        let (image, shared, point) = self.here(words, p);
        let here = expected::step(image, shared, point, bytes.here.all_mut());
        self.agree(there, here)?;
        bytes.agree("bytes")?;
        let after = self.point(p).head;
        self.tally.stepped(here, &before, &after);
        self.count_image(words);
        if here.kind == REFUSED {
            self.tally.refused_record("step", &before, here.value);
        }
        Ok(here)
    }

    pub fn leave(&mut self, words: usize, p: usize) -> Result<u32, String> {
        self.last = ("leave", [words, p, 0, 0]);
        let before = self.point(p).head;
        let (image, shared, point) = self.there(p);
        let there = unsafe { shim_leave(image, words, shared, point) };
        let (image, shared, point) = self.here(words, p);
        let here = expected::leave(image, shared, point);
        self.agree(there, here)?;
        self.count("leave", words, &before, here);
        Ok(here)
    }

    pub fn read(&mut self, words: usize, p: usize, offset: usize, room: usize) -> Result<Count, String> {
        self.last = ("read", [words, p, offset, room]);
        let before = self.point(p).head;
        let content = vec![self.random.any() as u8; room.min(140_000)];
        let mut buffer = self.both(&content, room);
        let (image, shared, point) = self.there(p);
        let there = unsafe { shim_read(image, words, shared, point, offset, buffer.there.pointer(), room) };
        let (image, shared, point) = self.here(words, p);
        let here = expected::read(image, shared, point, offset, buffer.here.part_mut(room));
        self.agree(there, here)?;
        buffer.agree("buffer")?;
        self.tally.input_if(room == 0, "a buffer of 0");
        self.tally.input_if(room >= WIDE, "a buffer beyond 32 bits");
        self.tally.input_if(offset >= WIDE, "an offset to read at beyond 32 bits");
        self.count("read", words, &before, here.refused);
        Ok(here)
    }

    pub fn locate(&mut self, words: usize, p: usize, block: usize) -> Result<Count, String> {
        self.last = ("locate", [words, p, block, 0]);
        let before = self.point(p).head;
        let (image, shared, point) = self.there(p);
        let there = unsafe { shim_locate(image, words, shared, point, block) };
        let (image, shared, point) = self.here(words, p);
        let here = expected::locate(image, shared, point, block);
        self.agree(there, here)?;
        self.tally.input_if(block >= WIDE, "a block beyond 32 bits");
        self.count("locate", words, &before, here.refused);
        Ok(here)
    }

    /// A view; it is counted under what locating answers.
    pub fn view(&mut self, words: usize, p: usize, block: usize) -> Result<(), String> {
        let before = self.point(p).head;
        let refused = self.locate(words, p, block)?.refused;
        self.last = ("view", [words, p, block, 0]);
        let (image, shared, point) = self.there(p);
        let there = unsafe { shim_view(image, words, shared, point, block) };
        let there = (!there.is_null()).then(|| there as isize - image as isize);
        let (image, shared, point) = self.here(words, p);
        let here = expected::view(image, shared, point, block).map(|place| 8 * place as isize);
        self.agree(there, here)?;
        self.count("view", words, &before, refused);
        Ok(())
    }

    /// How many log blocks a point is behind.
    pub fn behind(&mut self, words: usize, number: u32) -> Result<(), String> {
        self.last = ("behind", [words, number as usize, 0, 0]);
        let (image, shared, _) = self.there(0);
        let there = unsafe { shim_behind(image, words, shared, number) };
        let (image, shared, _) = self.here(words, 0);
        let here = expected::behind(image, shared, number);
        self.agree(there, here)?;
        self.tally.count("behind", if here == 0 { "by none" } else { "by some" });
        Ok(())
    }

    /// Counts a call with a point's record.
    fn count(&mut self, call: &str, words: usize, before: &Head, refused: u32) {
        self.count_image(words);
        self.tally.answered(call, refused);
        self.tally.refused_record(call, before, refused);
    }

    pub fn count_image(&mut self, words: usize) {
        self.tally.input_if(words == 0, "an image of 0 words");
        self.tally.input_if(words % 64 != 0, "an image of no multiple of 64 words");
        self.tally.input_if(words >= WIDE, "an image beyond 32 bits");
    }
}
