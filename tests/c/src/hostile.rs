//! Harm: words of the image and fields of the records become anything.

use second::acts::{a_length, an_offset};
use second::forge::broken_entry;
use second::image::Entry;

use crate::acts::{Done, Run};
use crate::c::READING;
use crate::world::PLACES;

impl Run {
    /// Where a point stands in the log, or any place of the chain, as far as
    /// that can be followed: a block and a word of it.
    fn a_log_place(&mut self) -> (usize, usize) {
        let head = self.world.point(self.random.below(PLACES)).head;
        let (block, slot) = (head.block as usize, head.slot as usize);
        if block < self.blocks() && slot < 64 && self.random.once_in(2) {
            return (block, slot);
        }
        let mut block = 1;
        for _ in 0..self.random.below(65) {
            match self.world.image()[64 * block] as usize {
                next if next > 0 && next < self.blocks() => block = next,
                _ => break,
            }
        }
        (block, self.random.below(64))
    }

    /// Changes one word: of the superblock, of the log, or any.
    pub fn harm(&mut self) {
        let blocks = self.blocks();
        let (block, slot) = self.a_log_place();
        let place = 64 * block + slot;
        let old = self.world.image()[place];
        let index = match self.random.below(4) {
            0 => self.random.any(),
            1 => self.random.below(blocks) as u64,
            _ => (blocks - 1 + self.random.below(3)) as u64,
        };
        let (place, value) = match self.random.below(12) {
            0 => (self.random.below(self.usual()), self.random.any()),
            1 => (self.random.below(self.usual()), self.random.below(3) as u64),
            2 => (1, *self.random.pick(&[0, index])),
            3..=5 => (64 * block, index),
            6 => (place, 0),
            7 => (place, self.lawful_entry()),
            _ => (place, broken_entry(&mut self.random, old, blocks)),
        };
        self.world.set_word(place, value);
    }

    fn lawful_entry(&mut self) -> u64 {
        let n = self.random.between(1, 3);
        let (v, b) = (self.random.below(8), self.random.between(1, self.blocks() - n));
        let (u, point) = (self.random.between(1, 512), self.random.below(32));
        Entry { v, b, n, u, point, rest: 0 }.pack()
    }

    /// A number at or beside the edge of some range, or any.
    fn a_number(&mut self) -> u32 {
        let blocks = self.blocks() as u32;
        // 64 times the last but one is the image's size in 32 bits.
        let edges =
            [0, 2, 5, 7, 31, 64, 128, 192, 512, 1_024, 65_535, 131_072, blocks, blocks + (1 << 26), u32::MAX];
        match self.random.below(6) {
            0 => self.random.any() as u32,
            1 => self.random.between(1, self.blocks()) as u32,
            _ => self.random.pick(&edges).wrapping_add(self.random.below(3) as u32).wrapping_sub(1),
        }
    }

    /// Changes one field of the record.
    fn alter_field(&mut self, p: usize) {
        let (field, value) = (self.random.below(11), self.a_number());
        self.world.alter(p, |point| {
            let head = &mut point.head;
            match field {
                0 => head.number = value,
                1 => head.length = value,
                2 => head.block = value,
                3 => head.slot = value,
                4 => head.offset = value,
                5 => head.size = value,
                6 => head.run = value,
                7 => head.phase = value,
                8 => head.position = value,
                9 => head.zeroing = value,
                _ => head.retries = value,
            }
        });
    }

    fn alter_shared(&mut self) {
        let (value, word) = (self.a_number(), self.random.any());
        let (field, i) = (self.random.below(8), self.random.below(16));
        let (p, chain) = (self.random.below(32), *self.random.pick(&[0, 1, 2, 63, 64, 65, value]));
        let report = *self.random.pick(&[0, 1, self.blocks() as u32 - 1, self.blocks() as u32, value]);
        self.world.alter_shared(|shared| match field {
            0 => shared.blocks = value,
            1 => shared.joined = value,
            2 => shared.taken = [u64::MAX; 16],
            3 if word % 4 == 0 => shared.taken = [0; 16],
            3 => shared.taken[0] = word,
            4 => shared.chain = chain,
            5 | 6 => shared.reports[p] = report,
            _ => shared.taken[i] = word,
        });
    }

    /// A write that fits, but that nobody began.
    fn alter_write(&mut self, p: usize) {
        let (offset, size) = (an_offset(&mut self.random) as u32, a_length(&mut self.random) as u32);
        let (phase, run) = (self.random.between(1, 4) as u32, self.random.between(1, self.blocks()) as u32);
        let position = self.random.below(194) as u32;
        self.world.alter(p, |point| {
            let head = &mut point.head;
            (head.offset, head.size, head.phase, head.run, head.position) =
                (offset, size, phase, run, position);
        });
    }

    /// A read that fits, mostly, but that nobody began; what it has no use for
    /// is anything.
    fn alter_read(&mut self, p: usize) {
        let (offset, size) = (an_offset(&mut self.random) as u32 % 140_000, a_length(&mut self.random) as u32);
        let touched = (offset + size.max(1) - 1) / 8 - offset / 8 + 1;
        let position = *self.random.pick(&[0, touched - 1, touched, touched, touched, touched + 1]);
        let (run, zeroing) = (self.a_number(), self.a_number());
        let length = *self.random.pick(&[self.world.point(p).head.length, offset, offset + size / 2, 131_072]);
        self.world.alter(p, |point| {
            let head = &mut point.head;
            (head.offset, head.size, head.phase, head.position) = (offset, size, READING, position);
            (head.run, head.zeroing, head.length) = (run, zeroing, length);
        });
    }

    /// A record that zeroes a log block, or has just done so, in a chain that
    /// may be full.
    fn alter_zeroing(&mut self, p: usize) {
        if self.random.once_in(2) {
            self.alter_write(p);
        }
        let phase = *self.random.pick(&[5, 5, 5, 1, 4]);
        let zeroing = self.random.between(1, self.blocks()) as u32;
        let position = *self.random.pick(&[60, 63, 64, 64, 65]);
        let chain = *self.random.pick(&[1, 63, 64]);
        self.world.alter(p, |point| {
            let head = &mut point.head;
            (head.slot, head.phase, head.zeroing, head.position) = (64, phase, zeroing, position);
        });
        self.world.alter_shared(|shared| shared.chain = chain);
    }

    /// All numbers of the record become anything.
    fn alter_all(&mut self, p: usize) {
        for _ in 0..30 {
            self.alter_field(p);
        }
        let seed = self.random.any();
        self.world.alter(p, |point| {
            point.table = std::array::from_fn(|i| (seed >> (i % 49)) as u16);
            point.text = std::array::from_fn(|i| (seed >> (i % 57)) as u8);
        });
    }

    fn alter_arrays(&mut self, p: usize) {
        let (v, value) = (*self.random.pick(&[0, 1, 2, 3, 255]), self.a_number() as u16);
        let (i, byte) = (self.random.below(1_024), self.random.any() as u8);
        self.world.alter(p, |point| {
            point.table[v] = value;
            point.text[i] = byte;
        });
    }

    /// One alteration of place p's record or of the shared record.
    fn alter(&mut self, p: usize) {
        match self.random.below(18) {
            0..=4 => self.alter_field(p),
            5 | 6 => self.alter_shared(),
            7 | 8 => self.alter_write(p),
            9 | 10 => self.alter_zeroing(p),
            11 => self.alter_all(p),
            12 => {
                let number = self.random.any() as u32;
                if self.random.below(2) == 0 {
                    self.world.alter(p, |point| point.head.phase = number | 8);
                } else {
                    self.world.alter(p, |point| point.head.retries = number | 65_536);
                }
            }
            13 => {
                let other = *self.world.point(self.random.below(PLACES));
                self.world.alter(p, |point| *point = other);
            }
            14 | 15 => self.alter_read(p),
            _ => self.alter_arrays(p),
        }
    }

    /// Alters a record and makes calls with it.
    pub fn altered(&mut self) -> Done {
        let p = self.random.below(PLACES);
        for _ in 0..self.random.between(1, 2) {
            self.alter(p);
        }
        let (words, offset) = (self.usual(), self.offset());
        for _ in 0..self.random.between(1, 4) {
            match self.random.below(12) {
                10 => self.serve_among(Some(p))?,
                0 => self.world.begin(words, p, offset, &[5; 600], 600).map(drop)?,
                8 => self.world.begin_read(words, p, offset, 600).map(drop)?,
                9 => self.world.behind(words, self.random.below(33) as u32)?,
                1 => self.world.read(words, p, offset, 700).map(drop)?,
                2 => self.world.leave(words, p).map(drop)?,
                3 => self.world.view(words, p, offset / 512)?,
                4 => self.steps(p, 400)?,
                _ => self.step(p).map(drop)?,
            }
        }
        Ok(())
    }
}
