//! Random runs of several kinds.

use second::digest::noise;
use second::forge::{any_plan, damage, forge, plan_with, Plan};
use second::random::Random;

use crate::acts::{Done, Run};
use crate::world::{World, PLACES, WIDE};

/// What a run is about.
#[derive(Clone, Copy, Debug, PartialEq, Eq)]
pub enum Kind {
    Ordinary,
    NearlyFullLog,
    NearlyFullImage,
    FullChain,
    HostileImage,
    HostileRecords,
    Openings,
    Beyond32Bits,
}

pub const KINDS: [Kind; 8] = [
    Kind::Ordinary,
    Kind::NearlyFullLog,
    Kind::NearlyFullImage,
    Kind::FullChain,
    Kind::HostileImage,
    Kind::HostileRecords,
    Kind::Openings,
    Kind::Beyond32Bits,
];

/// Calls of a run, about.
const CALLS: usize = 2_500;
/// Blocks of the images that are opened one after the other.
const MOST: usize = 100;

/// A run of a kind; its world shows what was counted.
pub fn run(mut random: Random, kind: Kind) -> (World, Done) {
    let first = first_image(&mut random, kind);
    let mut content = first.clone();
    content.resize(first.len() + random.below(200), 3);
    let world = World::new(Random::new(random.any()), &content, kind == Kind::Beyond32Bits);
    let strange = match kind {
        Kind::HostileImage => 20,
        Kind::HostileRecords | Kind::Openings => 10,
        Kind::Beyond32Bits => 6,
        _ => 60,
    };
    let mut run = Run { world, random, first, strange };
    let done = run.go(kind);
    (run.world, done)
}

/// Small, nearly full, long and large images.
fn first_image(random: &mut Random, kind: Kind) -> Vec<u64> {
    let plan = match kind {
        Kind::Ordinary | Kind::Beyond32Bits => return fresh(random),
        Kind::NearlyFullLog => nearly_full_log(random),
        Kind::NearlyFullImage => nearly_full_image(random),
        Kind::FullChain => full_chain(random),
        Kind::HostileImage | Kind::HostileRecords => any_plan(random, 60),
        Kind::Openings => plan_with(random, MOST, 3),
    };
    forge(random, plan).image()
}

/// Noise that was laid out.
fn fresh(random: &mut Random) -> Vec<u64> {
    let blocks = match random.below(8) {
        0 => *random.pick(&[1_023, 1_024]),
        1 => random.between(4, 300),
        _ => random.between(8, 50),
    };
    let mut image = vec![0; 64 * blocks];
    noise(&mut image, random.any());
    let _ = second::image::lay_out(&mut image);
    image
}

fn nearly_full_log(random: &mut Random) -> Plan {
    let full = random.below(4);
    Plan {
        blocks: random.between(full + 8, 60),
        full,
        more: Some(random.between(54, 61)),
        spare: random.between(3, 20),
        reach: *random.pick(&[3, 6, 256]),
        used: 512,
    }
}

fn nearly_full_image(random: &mut Random) -> Plan {
    Plan {
        blocks: random.between(5, 30),
        full: random.below(2),
        more: Some(random.between(55, 61)),
        spare: random.between(0, 4),
        reach: *random.pick(&[12, 256]),
        used: 400,
    }
}

/// A chain of 61 to 64 log blocks with a few entries left.
fn full_chain(random: &mut Random) -> Plan {
    let full = *random.pick(&[61, 62, 63, 63, 64]);
    let blocks = full + random.between(5, 40);
    let mut plan = plan_with(random, blocks, full);
    if full < 64 {
        plan.more = Some(random.between(56, 61));
    }
    plan.spare = plan.spare.max(3);
    plan
}

impl Run {
    fn go(&mut self, kind: Kind) -> Done {
        self.begin_again()?;
        while self.world.calls < CALLS {
            match kind {
                Kind::Ordinary if self.random.once_in(30) => self.laid_out()?,
                Kind::FullChain if self.random.once_in(10) => self.harmed()?,
                Kind::HostileImage => self.harmed()?,
                Kind::HostileRecords => self.among_altered()?,
                Kind::Openings => self.openings()?,
                Kind::Beyond32Bits if self.random.once_in(20) => self.beyond()?,
                _ => self.work()?,
            }
        }
        Ok(())
    }

    fn laid_out(&mut self) -> Done {
        self.world.lay_out(self.usual())?;
        self.begin_again()
    }

    /// Each call with an image that 32 bits would cut to the usual one, and
    /// reads into a buffer that they would cut short.
    fn beyond(&mut self) -> Done {
        let words = WIDE + self.usual();
        for p in 0..PLACES {
            self.world.read(self.usual(), p, 0, WIDE + 9)?;
            self.world.begin(words, p, 0, &[5; 9], 9)?;
            self.world.begin_read(words, p, 0, 9)?;
            self.world.step(words, p)?;
            self.world.read(words, p, 0, 9)?;
            self.world.view(words, p, 0)?;
            self.world.leave(words, p)?;
        }
        for number in 0..32 {
            self.world.join(words, 0, number)?;
        }
        self.serve_beyond(words)?;
        self.world.lay_out(words)?;
        self.world.list(words, 1_024)?;
        self.world.open(words, 1_024)?;
        self.begin_again()
    }

    /// Work, a harmed word, work.
    fn harmed(&mut self) -> Done {
        for _ in 0..self.random.below(5) {
            self.work()?;
        }
        self.harm();
        for p in self.places(false) {
            self.steps(p, 200)?;
        }
        for _ in 0..self.random.between(1, 5) {
            self.work()?;
        }
        if self.random.once_in(4) {
            self.begin_again()?;
        }
        Ok(())
    }

    fn among_altered(&mut self) -> Done {
        self.work()?;
        self.altered()?;
        if self.random.once_in(4) {
            self.begin_again()?;
        }
        Ok(())
    }

    /// Another image in the same memory, mostly a damaged one, is opened and
    /// worked on, then a part of the memory is laid out and opened.
    fn openings(&mut self) -> Done {
        let plan = any_plan(&mut self.random, MOST);
        let mut forged = forge(&mut self.random, plan);
        for _ in 0..*self.random.pick(&[0, 1, 1, 1, 2]) {
            let kind = self.random.between(3, 9);
            damage(&mut self.random, &mut forged, kind);
        }
        self.first = forged.image();
        if self.random.once_in(20) {
            noise(&mut self.first, self.random.any());
        }
        self.world.put(&self.first);
        self.open()?;
        self.join()?;
        self.look()?;
        self.begin()?;
        self.some_steps()?;
        let words = self.random.below(self.world.image().len() + 1);
        let words = *self.random.pick(&[words, words / 64 * 64]);
        self.world.lay_out(words)?;
        self.world.open(words, 1_024).map(drop)
    }
}
