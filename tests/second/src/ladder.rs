//! The scene of K6 in which the number of rounds matters. In no list of calls is a point
//! unfinished after the last round. Here the map is altered so that the log block counts
//! as free: a run lies over it, and its copied words are lawful entries, one for each
//! attempt to commit. Each of them makes the edges be filled again, and that stores the
//! next one.

use crate::image::*;
use crate::maker::Maker;
use crate::random::Random;
use crate::servers::{look_after, serve_line, some_writes, ListedWrite};
use crate::serve::most_rounds;

/// Where the climber's write begins: its bytes of a first block, all of a middle one and
/// one byte of a last block, which is the log block.
#[derive(Clone, Copy, Debug)]
struct Ladder {
    /// The points of the list.
    count: usize,
    /// The first virtual block of the climber's write, and the offset in it.
    v: usize,
    offset: usize,
    /// The entries cover its first block too, not the last alone.
    both: bool,
    /// The slot of the tail, and how many entries follow there, one after each attempt.
    slot: usize,
    rungs: usize,
    /// The log block. The run is this and the two before it.
    log: usize,
}

impl Ladder {
    /// The words that are filled again after each Moved: those with a copied byte.
    fn refill(&self) -> usize {
        64 + if self.both { self.offset.div_ceil(8) } else { 0 }
    }

    /// The round of the attempt to commit that follows so many Moved answers.
    fn attempt(&self, moved: usize) -> usize {
        193 + moved * (self.refill() + 1)
    }

    /// How many Moved answers there are before the last round, if it is an attempt.
    fn at_last_round(&self) -> Option<usize> {
        let rounds = most_rounds(self.count);
        let moved = (rounds - 193) / (self.refill() + 1);
        (self.attempt(moved) == rounds).then_some(moved)
    }

    /// The climber's write. Its last text byte is 0, and so is the log block's next index.
    fn write(&self) -> ListedWrite {
        let length = 512 - self.offset + 513;
        (512 * self.v + self.offset, length, (256 - 7 * (length - 1) % 256) % 256)
    }

    /// The blocks that the log's last virtual block is mapped to in turn.
    fn sides(&self) -> [usize; 2] {
        [self.log + 4, self.log + 5]
    }

    /// The entry that maps the write's last block to a side.
    fn entry(&self, side: usize) -> u64 {
        let n = if self.both { 3 } else { 1 };
        let (v, b) = (self.v + 3 - n, self.sides()[side] + 1 - n);
        Entry { v, b, n, u: 512, point: 0, rest: 0 }.pack()
    }

    /// The other points' blocks, each alone, and one more for the log.
    fn lone_blocks(&self) -> Vec<usize> {
        (0..=self.count).map(|i| self.log + 7 + 2 * i).collect()
    }

    fn blocks(&self) -> usize {
        self.log + 9 + 2 * self.count
    }
}

/// A ladder for that many points whose climber is at its end in the last round, makes an
/// attempt in it, or has more of it before itself.
fn a_ladder(random: &mut Random, count: usize) -> Ladder {
    let mut ladder = Ladder { count, v: 0, offset: 511, both: true, slot: 3, rungs: 61, log: 3 };
    ladder.v = random.below(5);
    ladder.log = random.between(3, 9);
    for _ in 0..300 {
        let (offset, both) = (random.between(1, 511), !random.once_in(3));
        let tried = Ladder { offset, both, ..ladder };
        match tried.at_last_round().filter(|&moved| moved <= 60) {
            Some(moved) if !random.once_in(4) => return aimed(random, tried, moved),
            _ => {}
        }
    }
    // Long enough for any number of points.
    ladder.offset = random.between(500, 511);
    ladder.rungs = random.between(count + 2, 60);
    ladder.slot = random.between(3, 64 - ladder.rungs);
    ladder
}

/// In the last round, after so many Moved answers: Moved, Extending or Committed.
fn aimed(random: &mut Random, ladder: Ladder, moved: usize) -> Ladder {
    match random.below(3) {
        0 => Ladder { rungs: moved, slot: 64 - moved, ..ladder },
        1 => Ladder { rungs: moved, slot: random.between(3, 63 - moved), ..ladder },
        _ => {
            let rungs = random.between(moved + 1, 61);
            Ladder { rungs, slot: random.between(3, 64 - rungs), ..ladder }
        }
    }
}

/// A ladder, and a list of points on it of which one climbs.
pub fn climb(maker: &mut Maker) {
    let any = maker.random.between(1, 32);
    let count = *maker.random.pick(&[1, 1, 1, 2, 2, 3, 3, 4, 5, 6, 8, any]);
    let ladder = a_ladder(&mut maker.random, count);
    put_ladder(maker, &ladder);
    let shift = maker.random.below(32);
    let list: Vec<usize> = (0..count).map(|i| (i + shift) % 32).collect();
    for &p in &list {
        maker.say(&format!("join {p}"));
    }
    free_run(maker, &ladder);
    let climber = maker.random.below(count);
    let mut writes = others_writes(&mut maker.random, count);
    writes[climber] = ladder.write();
    if count > 2 && ladder.slot < 60 && maker.random.once_in(3) {
        // The others are led into a broken word, which the climber's run is laid over.
        maker.say(&format!("set {} {}", place_of(ladder.log, ladder.slot + 1), u64::MAX));
    }
    maker.say(&serve_line(&list, &writes));
    let p = list[climber];
    maker.say(&format!("record {p}"));
    look_after(maker, &list);
    if maker.random.once_in(2) {
        maker.say(&format!("step {p} 1"));
        maker.say(&serve_line(&list, &writes));
        look_after(maker, &list);
    }
}

/// Mostly small writes that end before the climber has filled its run; now and then they
/// are empty, and refused.
fn others_writes(random: &mut Random, count: usize) -> Vec<ListedWrite> {
    if random.once_in(5) {
        return some_writes(random, count);
    }
    let least = usize::from(!random.once_in(4));
    let write = |i: usize| (512 * (20 + i) + random.below(400), least * random.between(1, 100), i);
    (0..count).map(write).collect()
}

/// The image, opened: a log of one block, and the words that the climber copies over it.
fn put_ladder(maker: &mut Maker, ladder: &Ladder) {
    maker.say(&format!("image {}", BLOCK_WORDS * ladder.blocks()));
    maker.say(&format!("set 0 {MARK}"));
    maker.say(&format!("set 1 {}", ladder.log));
    for slot in FIRST_SLOT..ladder.slot {
        maker.say(&format!("set {} {}", place_of(ladder.log, slot), ladder.entry(0)));
    }
    for rung in 0..ladder.rungs {
        let (here, there) = (rung % 2, 1 - rung % 2);
        let place = place_of(ladder.sides()[here], ladder.slot + rung);
        maker.say(&format!("set {place} {}", ladder.entry(there)));
    }
    maker.say("open 1024");
}

/// The map's words: the run over the log block is free, and the lone blocks.
fn free_run(maker: &mut Maker, ladder: &Ladder) {
    let mut free = ladder.lone_blocks();
    free.extend(ladder.log - 2..=ladder.log);
    for i in 0..ladder.blocks().div_ceil(64) {
        let in_word = free.iter().filter(|&&block| block / 64 == i);
        let map = in_word.fold(u64::MAX, |map, block| map & !(1 << (block % 64)));
        maker.say(&format!("map {i} {map}"));
    }
}
