//! Acts of a run: honest work of some points, alone and against each other.

use second::acts::{a_length, an_offset};
use second::random::Random;

use crate::c::*;
use crate::world::{World, PLACES, WIDE};

pub type Done = Result<(), String>;

pub struct Run {
    pub world: World,
    pub random: Random,
    /// The image that the run begins with, and begins again with. Honest
    /// calls are lent as many words.
    pub first: Vec<u64>,
    /// A number that a caller hands in is strange once in so many times.
    pub strange: usize,
}

impl Run {
    pub fn usual(&self) -> usize {
        self.first.len()
    }

    pub fn blocks(&self) -> usize {
        self.first.len() / 64
    }

    /// How many words a call is lent.
    pub fn words(&mut self) -> usize {
        let (usual, known) = (self.usual(), self.world.image().len());
        if !self.random.once_in(4 * self.strange) {
            return usual;
        }
        match self.random.below(6) {
            0 => 0,
            1 => usual.saturating_sub(1),
            2 => usual.saturating_sub(64),
            3 => known.min(usual + 1),
            4 if self.world.is_wide => WIDE + usual,
            4 => 64 * self.random.below(known / 64 + 1),
            _ => self.random.below(known + 1),
        }
    }

    pub fn offset(&mut self) -> usize {
        if !self.random.once_in(self.strange) {
            return an_offset(&mut self.random) % 100_000;
        }
        match self.random.below(4) {
            0 => self.random.any() as usize,
            1 => WIDE * self.random.between(1, 3) + an_offset(&mut self.random),
            2 => usize::MAX - self.random.below(2_000),
            _ => an_offset(&mut self.random),
        }
    }

    /// An element count: the usual one, or one that 32 bits can't hold.
    fn wide(&mut self, usual: usize) -> usize {
        if self.world.is_wide && self.random.once_in(12) {
            WIDE + usual
        } else {
            usual
        }
    }

    pub fn joined(&self, p: usize) -> bool {
        let number = self.world.point(p).head.number;
        number < 32 && self.world.shared().joined >> number & 1 == 1
    }

    /// Joined places that are idle, or that are not.
    pub fn places(&self, idle: bool) -> Vec<usize> {
        let is = |p: &usize| self.joined(*p) && (self.world.point(*p).head.phase == 0) == idle;
        (0..PLACES).filter(is).collect()
    }

    /// One of the places, or now and then any.
    fn a_place(&mut self, places: &[usize]) -> usize {
        if places.is_empty() || self.random.once_in(12) {
            self.random.below(PLACES)
        } else {
            *self.random.pick(places)
        }
    }

    pub fn open(&mut self) -> Result<Opened, String> {
        let short = *self.random.pick(&[0, 1, 1_023]);
        let places = if self.world.is_wide && self.random.once_in(3) {
            WIDE + short
        } else if self.random.once_in(4 * self.strange) {
            short
        } else {
            *self.random.pick(&[1_024, 1_024, 1_025, 2_048])
        };
        let words = self.words();
        if self.random.once_in(4) {
            self.world.list(words, places)?;
        }
        self.world.open(words, places)
    }

    /// Opens, if need be from the first image, and some points join.
    pub fn begin_again(&mut self) -> Done {
        if self.random.once_in(3) || self.open()?.refused != 0 {
            self.world.put(&self.first);
            self.world.open(self.usual(), 1_024)?;
        }
        for p in 0..PLACES {
            let number = self.random.below(32) as u32;
            if self.world.shared().blocks > 0 && !self.random.once_in(4) {
                self.world.join(self.usual(), p, number)?;
            }
        }
        Ok(())
    }

    pub fn join(&mut self) -> Done {
        let unjoined: Vec<usize> = (0..PLACES).filter(|&p| !self.joined(p)).collect();
        let p = self.a_place(&unjoined);
        let number = match self.random.below(8) {
            0 => *self.random.pick(&[31, 32, 33, 64, 256, 65_536, u32::MAX]),
            1 => self.random.any() as u32,
            _ => self.random.below(32) as u32,
        };
        let words = self.words();
        self.world.join(words, p, number).map(drop)
    }

    pub fn leave(&mut self) -> Done {
        let places = [self.places(true), self.places(false)].concat();
        let (words, p) = (self.words(), self.a_place(&places));
        self.world.leave(words, p).map(drop)
    }

    pub fn begin(&mut self) -> Done {
        let places = self.places(true);
        if self.world.shared().joined == 0 && !self.random.once_in(8) {
            return self.begin_again();
        }
        let p = self.a_place(&places);
        let offset = self.offset();
        let size = a_length(&mut self.random);
        let refused = self.begin_at(p, offset, size)?;
        if refused == NO_RUN && self.random.once_in(10) {
            return self.begin_again();
        }
        Ok(())
    }

    fn begin_at(&mut self, p: usize, offset: usize, size: usize) -> Result<u32, String> {
        let seed = self.random.any();
        let text: Vec<u8> = (0..size).map(|i| (seed >> (i % 57)) as u8).collect();
        let (words, size) = (self.words(), self.wide(size));
        self.world.begin(words, p, offset, &text, size)
    }

    pub fn begin_read(&mut self) -> Done {
        let places = self.places(true);
        let p = self.a_place(&places);
        let offset = self.offset();
        let size = a_length(&mut self.random);
        let size = match self.random.below(self.strange) {
            0 => WIDE * self.random.between(1, 3) + size,
            1 => self.random.any() as usize,
            _ => size,
        };
        let words = self.words();
        self.world.begin_read(words, p, offset, size).map(drop)
    }

    pub fn step(&mut self, p: usize) -> Result<bool, String> {
        let words = self.words();
        let answer = self.world.step(words, p)?;
        Ok(![COMMITTED, REFUSED, BYTES].contains(&answer.kind))
    }

    /// Steps of one place, until the write or read is done or some are made.
    pub fn steps(&mut self, p: usize, most: usize) -> Done {
        for _ in 0..most {
            if !self.step(p)? {
                break;
            }
        }
        Ok(())
    }

    pub fn some_steps(&mut self) -> Done {
        let places = self.places(false);
        if places.is_empty() && !self.random.once_in(8) {
            return self.begin();
        }
        let p = self.a_place(&places);
        let most = *self.random.pick(&[1, 3, 30, 66, 200, 400]);
        self.steps(p, most)
    }

    /// All places with a write or read under way step in turn.
    pub fn in_turn(&mut self) -> Done {
        for _ in 0..self.random.below(80) {
            for p in self.places(false) {
                self.step(p)?;
            }
        }
        Ok(())
    }

    pub fn look(&mut self) -> Done {
        let places = [self.places(true), self.places(false)].concat();
        let (words, p) = (self.words(), self.a_place(&places));
        let number = self.random.below(33) as u32;
        self.world.behind(words, number)?;
        if self.random.once_in(2) {
            let offset = self.offset();
            let room = *self.random.pick(&[0, 1, 9, 512, 3_000, 140_000]);
            let room = self.wide(room);
            return self.world.read(words, p, offset, room).map(drop);
        }
        let block = match self.random.below(8) {
            0 => *self.random.pick(&[255, 256, 257, 65_536, WIDE, WIDE + 1, usize::MAX]),
            1 => self.random.any() as usize,
            2 => self.random.below(256),
            _ => self.random.below(6),
        };
        self.world.view(words, p, block)
    }

    /// Two points write over the same edges; the second commits first.
    pub fn conflict(&mut self) -> Done {
        let idle = self.places(true);
        let [p, q, ..] = idle[..] else { return self.join() };
        let offset = an_offset(&mut self.random) % 100_000;
        let size = a_length(&mut self.random).clamp(1, 1_024);
        let end = offset + size;
        let other = match self.random.below(4) {
            0 => offset,
            1 => end,
            2 => offset / 512 * 512 + self.random.below(512),
            _ => end / 512 * 512 + self.random.below(512),
        };
        let other_size = a_length(&mut self.random).clamp(1, 1_024);
        self.begin_at(p, offset, size)?;
        self.begin_at(q, other, other_size)?;
        if self.random.once_in(2) {
            let most = self.random.below(194);
            self.steps(p, most)?;
        }
        if self.random.once_in(12) {
            self.world.alter(p, |point| point.head.retries = u32::from(u16::MAX) - 1);
        }
        self.steps(q, 400)?;
        self.steps(p, 400)
    }

    /// A point reads in steps; between them another writes into the range,
    /// beside it or past the end.
    pub fn watch(&mut self) -> Done {
        let idle = self.places(true);
        let [p, q, ..] = idle[..] else { return self.join() };
        let offset = an_offset(&mut self.random) % 100_000;
        let size = a_length(&mut self.random).clamp(1, 1_024);
        let words = self.words();
        self.world.begin_read(words, p, offset, size)?;
        for _ in 0..self.random.below(3) {
            let most = *self.random.pick(&[0, 1, 40, 129, 130]);
            self.steps(p, most)?;
            let place = match self.random.below(4) {
                0 => offset,
                1 => offset + self.random.below(size),
                2 => (offset + size) / 512 * 512,
                _ => an_offset(&mut self.random) % 100_000,
            };
            let length = a_length(&mut self.random).clamp(1, 1_024);
            self.begin_at(q, place, length)?;
            let most = *self.random.pick(&[30, 400, 400]);
            self.steps(q, most)?;
        }
        self.steps(p, 260)
    }

    /// Two points want a new log block at once; one of them may leave.
    pub fn race(&mut self) -> Done {
        let idle = self.places(true);
        let [p, q, ..] = idle[..] else { return self.join() };
        let offset = an_offset(&mut self.random) % 100_000;
        for place in [p, q] {
            self.begin_at(place, offset, 9)?;
            self.steps(place, 65)?;
        }
        for place in [p, q, p, q] {
            let most = *self.random.pick(&[1, 2, 30, 65, 66]);
            self.steps(place, most)?;
        }
        if self.random.once_in(4) {
            self.leave()?;
        }
        self.steps(q, 400)?;
        self.steps(p, 400)
    }

    /// One act of honest work.
    pub fn work(&mut self) -> Done {
        match self.random.below(42) {
            0..=7 => self.begin(),
            8 | 9 => self.begin_read(),
            10..=20 => self.some_steps(),
            21..=23 => self.in_turn(),
            24..=29 => self.look(),
            30 | 31 => self.join(),
            32 => self.leave(),
            33 => self.begin_again(),
            34 | 35 => self.race(),
            36 | 37 => self.watch(),
            38 | 39 => self.serve(),
            _ => self.conflict(),
        }
    }
}
