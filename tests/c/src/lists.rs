//! Lists that are served: points that meet, and lists that are none.

use second::acts::{a_length, an_offset};

use crate::acts::{Done, Run};
use crate::c::Write;
use crate::served::List;
use crate::world::{LISTABLE, PLACES, WIDE};

impl Run {
    /// A list of the usual places, or of many points that join for it.
    pub fn serve(&mut self) -> Done {
        self.serve_among(None)
    }

    /// The same, with this place in it.
    pub fn serve_among(&mut self, with: Option<usize>) -> Done {
        let many = match self.random.below(60) {
            0 => *self.random.pick(&[26, 27, 28, 29, 30, 31, 32, 33, LISTABLE - PLACES]),
            1..=4 => self.random.between(2, 12),
            _ => 0,
        };
        let guests = self.guests(many)?;
        let mut places: Vec<usize> = (0..PLACES).filter(|&p| self.joined(p) || self.random.once_in(8)).collect();
        places.extend(with.filter(|p| !places.contains(p)));
        places.extend(&guests);
        let keep = if many > 0 { places.len().min(32.max(many)) } else { self.random.between(1, PLACES) };
        for i in (1..places.len()).rev() {
            places.swap(i, self.random.below(i + 1));
        }
        places.truncate(if self.random.once_in(6) { LISTABLE } else { keep });
        let mut list = self.honest(places);
        if self.random.once_in(self.strange.min(12)) {
            self.spoil(&mut list);
        }
        let words = self.words();
        self.world.serve(words, &list)?;
        for p in guests {
            self.world.leave(self.usual(), p)?;
        }
        Ok(())
    }

    /// So many points join at places behind the usual ones, if numbers are left.
    fn guests(&mut self, many: usize) -> Result<Vec<usize>, String> {
        let shared = self.world.shared();
        let free: Vec<u32> = (0..32).filter(|number| shared.joined >> number & 1 == 0).collect();
        let mut guests = Vec::new();
        for (p, i) in (PLACES..LISTABLE).zip(0..many) {
            let number = free.get(i).copied().unwrap_or(31);
            self.world.join(self.usual(), p, number)?;
            guests.push(p);
        }
        Ok(guests)
    }

    /// A write for each, many of them into the same blocks.
    fn honest(&mut self, places: Vec<usize>) -> List {
        let base = self.offset();
        let is_long = places.len() < 9 || self.random.once_in(6);
        let mut writes = Vec::new();
        for _ in &places {
            let offset = match self.random.below(6) {
                0 => self.offset(),
                1 => an_offset(&mut self.random) % 100_000,
                2 => base,
                _ => base % 100_000 / 512 * 512 + self.random.below(if is_long { 1_600 } else { 9_000 }),
            };
            let size = a_length(&mut self.random);
            let size = if self.random.once_in(self.strange) { size } else { size.clamp(1, if is_long { 1_024 } else { 40 }) };
            writes.push(Write { offset, size });
        }
        let n = places.len();
        let sum: usize = writes.iter().map(|write| write.size).sum();
        let seed = self.random.any();
        let bytes = (0..sum).map(|i| (seed >> (i % 57)) as u8).collect();
        List { places, heads: n, tables: n, texts: n, answers: n, writes, bytes, size: sum }
    }

    /// An image, texts and counts beyond 32 bits, which would cut them to what is right.
    pub fn serve_beyond(&mut self, words: usize) -> Done {
        let list = self.honest(vec![0, 1]);
        self.world.serve(words, &list)?;
        let mut long = list.clone();
        long.writes[1].size += WIDE;
        long.size += WIDE;
        self.world.serve(self.usual(), &long)?;
        for which in 0..3 {
            let mut list = list.clone();
            match which {
                0 => list.heads += WIDE,
                1 => list.size += WIDE,
                _ => list.writes[0].size += WIDE,
            }
            self.world.serve(self.usual(), &list)?;
        }
        Ok(())
    }

    /// One count or size beside the right one, too few or too many.
    fn beside(&mut self, count: usize) -> usize {
        *self.random.pick(&[0, count.saturating_sub(1), count + 1, count + 1, count + 7])
    }

    /// One thing of the list is wrong, or strange.
    fn spoil(&mut self, list: &mut List) {
        let n = list.places.len();
        match self.random.below(12) {
            0 => list.tables = self.beside(n),
            1 => list.texts = self.beside(n),
            2 => list.answers = self.beside(n),
            3 => {
                let count = self.beside(n);
                list.writes.resize(count, Write { offset: 9, size: 0 });
            }
            4 => {
                list.size = self.beside(list.size);
                list.bytes.truncate(list.size);
            }
            5 if n > 1 => self.wrap(list),
            6 => self.repeat(list),
            7 => *list = self.honest(Vec::new()),
            8 if self.world.is_wide => list.heads = WIDE + n,
            9 if self.world.is_wide && n > 0 => {
                list.writes[n - 1].size += WIDE;
                list.size += WIDE;
            }
            10 => {
                let places = (0..*self.random.pick(&[33, 33, LISTABLE])).collect();
                *list = self.honest(places);
            }
            _ => self.number_above(list),
        }
    }

    /// Two sizes become so large that their sum wraps to the right one.
    fn wrap(&mut self, list: &mut List) {
        let by = self.random.below(2_000) + 1;
        list.writes[0].size = list.writes[0].size.wrapping_sub(by);
        list.writes[1].size = list.writes[1].size.wrapping_add(by);
        if list.writes[0].size < usize::MAX / 2 {
            let half = 1 << 63;
            list.writes[0].size += half;
            list.writes[1].size += half;
        }
    }

    /// A place, or another record with its number, stands again.
    fn repeat(&mut self, list: &mut List) {
        let Some(&first) = list.places.first() else { return };
        let last = list.places.len() - 1;
        if self.random.once_in(2) {
            list.places[last] = first;
            return;
        }
        let number = self.world.point(first).head.number;
        self.world.alter(list.places[last], |point| point.head.number = number);
    }

    /// A number above 31 stands twice, or once.
    fn number_above(&mut self, list: &mut List) {
        let number = *self.random.pick(&[32, 33, 64, 256, u32::MAX]);
        let count = self.random.between(1, 2);
        for &p in list.places.iter().rev().take(count) {
            self.world.alter(p, |point| point.head.number = number);
        }
    }
}
