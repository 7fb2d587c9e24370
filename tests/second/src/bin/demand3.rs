//! Random lists of calls; after each call the image is opened again and what
//! it shows is compared with the book.

use std::process::ExitCode;

use second::acts::{a_length, an_offset};
use second::forge::{any_plan, forge, plan_with, Plan};
use second::image::lay_out;
use second::random::Random;
use second::readers::a_read_length;
use second::record::{Phase, Record};
use second::serve::most_rounds;
use second::servers::some_writes;
use second::tally::{Tally, EVENTS};
use second::world::*;

const USAGE: &str = "demand3 [--seed S] [--runs N] [--calls N]";

struct Options {
    seed: u64,
    runs: usize,
    calls: usize,
}

/// Points that stepped alone: how many, and the most steps of a write and of a
/// read.
#[derive(Default)]
struct Alone {
    points: usize,
    write: usize,
    read: usize,
}

impl Alone {
    fn add(&mut self, other: &Alone) {
        self.points += other.points;
        self.write = self.write.max(other.write);
        self.read = self.read.max(other.read);
    }
}

/// Lists served, and the fewest rounds that were left.
struct Served {
    lists: usize,
    left: usize,
}

impl Served {
    fn none() -> Served {
        Served { lists: 0, left: usize::MAX }
    }

    fn add(&mut self, other: &Served) {
        self.lists += other.lists;
        self.left = self.left.min(other.left);
    }
}

/// One run's walk: the world, its random numbers and what was seen.
struct Walk {
    world: World,
    random: Random,
    limit: usize,
    alone: Alone,
    served: Served,
    /// Beginnings refused since one that was not.
    barren: usize,
}

fn main() -> ExitCode {
    let Some(options) = options() else {
        eprintln!("usage: {USAGE}");
        return ExitCode::from(2);
    };
    println!("seed {}", options.seed);
    for (name, longest, most) in [
        ("case", longest_case(), MOST_STEPS),
        ("read", longest_read(), MOST_READ_STEPS),
    ] {
        match longest {
            Ok(steps) if steps == most => println!("the longest {name} takes {most} steps"),
            Ok(steps) => return failed(&format!("the longest {name} takes {steps} steps")),
            Err(why) => return failed(&format!("the longest {name}: {why}")),
        }
    }
    for count in [1, 2, 3] {
        match longest_serve(count) {
            Ok(rounds) if rounds + 1 == most_rounds(count) => {
                println!("the longest known call for {count} takes {rounds} rounds");
            }
            Ok(rounds) => return failed(&format!("the longest call for {count}: {rounds} rounds")),
            Err(why) => return failed(&format!("the longest call for {count}: {why}")),
        }
    }
    run_all(&options)
}

fn failed(why: &str) -> ExitCode {
    println!("FAILED: {why}");
    ExitCode::FAILURE
}

fn options() -> Option<Options> {
    let mut options = Options { seed: 1, runs: 400, calls: 2_000 };
    let mut words = std::env::args().skip(1);
    while let Some(word) = words.next() {
        let value = words.next()?;
        match word.as_str() {
            "--seed" => options.seed = value.parse().ok()?,
            "--runs" => options.runs = value.parse().ok()?,
            "--calls" => options.calls = value.parse().ok()?,
            _ => return None,
        }
    }
    Some(options)
}

fn run_all(options: &Options) -> ExitCode {
    let mut tally = Tally::default();
    let (mut calls, mut alone, mut served) = (0, Alone::default(), Served::none());
    for run in 0..options.runs {
        let mut random = Random::stream(options.seed, run as u64);
        let image = first_image(&mut random, run);
        let world = match World::new(image) {
            Ok(world) => world,
            Err(why) => return failed(&format!("seed {} run {run}: {why}", options.seed)),
        };
        let limit = options.calls;
        let (alone_here, served_here) = (Alone::default(), Served::none());
        let mut walk =
            Walk { world, random, limit, alone: alone_here, served: served_here, barren: 0 };
        if let Err(why) = walk.go() {
            let call = walk.world.calls;
            return failed(&format!("seed {} run {run} call {call}: {why}", options.seed));
        }
        tally.add(&walk.world.tally);
        calls += walk.world.calls;
        alone.add(&walk.alone);
        served.add(&walk.served);
    }
    report(&tally);
    println!(
        "{} points stepped alone, at most {} steps of a write and {} of a read",
        alone.points, alone.write, alone.read
    );
    println!("{} lists served, each with at least {} rounds left", served.lists, served.left);
    println!("{} runs, {calls} calls: after each, image and book agreed", options.runs);
    ExitCode::SUCCESS
}

fn report(tally: &Tally) {
    for (call, answers, _) in second::tally::TABLE {
        let mut counts: Vec<String> =
            answers.iter().map(|answer| format!("{answer} {}", tally.of(call, answer))).collect();
        counts.extend((1..=27).filter_map(|number| {
            let times = tally.of(call, &format!("refused {number}"));
            (times > 0).then(|| format!("refused {number}: {times}"))
        }));
        if tally.total(call) > 0 {
            println!("{call}: {}", counts.join(", "));
        }
    }
    for event in EVENTS.iter().filter(|event| tally.of("event", event) > 0) {
        println!("event: {event} {}", tally.of("event", event));
    }
}

/// Small, nearly full, long and large images.
fn first_image(random: &mut Random, run: usize) -> Vec<u64> {
    match run % 8 {
        0 => fresh(random, 4, 10),
        1 => fresh(random, 8, 60),
        2 => {
            let plan = any_plan(random, 60);
            forge(random, plan).image()
        }
        3 | 4 => nearly_full(random),
        5 | 6 => {
            let full = *random.pick(&[61, 62, 63, 63, 64]);
            let blocks = full + random.between(5, 40);
            let mut plan = plan_with(random, blocks, full);
            if full < 64 {
                plan.more = Some(random.between(54, 61));
            }
            forge(random, plan).image()
        }
        _ => {
            let blocks = *random.pick(&[100, 1_023, 1_024]);
            let full = random.below(5);
            let plan = plan_with(random, blocks, full);
            forge(random, plan).image()
        }
    }
}

fn fresh(random: &mut Random, least: usize, most: usize) -> Vec<u64> {
    let mut image = vec![0; 64 * random.between(least, most)];
    second::digest::noise(&mut image, random.any());
    let _ = lay_out(&mut image);
    image
}

fn nearly_full(random: &mut Random) -> Vec<u64> {
    let full = random.below(4);
    let plan = Plan {
        blocks: random.between(full + 5, 40),
        full,
        more: Some(random.between(54, 61)),
        spare: random.between(0, 8),
        reach: *random.pick(&[3, 6, 256]),
        used: *random.pick(&[512, 511, 40]),
    };
    forge(random, plan).image()
}

impl Walk {
    fn call(&mut self, call: Call) -> Result<(), String> {
        self.world.call(call).map(drop)
    }

    /// Random acts until the calls are spent.
    fn go(&mut self) -> Result<(), String> {
        for p in 0..self.random.between(1, 5) {
            self.call(Call::Join(p * 6))?;
        }
        while self.world.calls < self.limit && self.barren < 60 {
            match self.random.below(62) {
                _ if self.joined().is_empty() && !self.random.once_in(4) => self.join()?,
                0 => self.join()?,
                1 => self.leave()?,
                2 => self.stranger()?,
                3..=14 => self.begin()?,
                15..=18 => self.begin_read()?,
                19..=21 => self.together()?,
                22 | 23 => self.serve()?,
                _ => self.steps()?,
            }
            if self.random.once_in(6) {
                self.alone()?;
            }
        }
        Ok(())
    }

    fn join(&mut self) -> Result<(), String> {
        let number = match self.random.below(8) {
            0 => *self.random.pick(&[32, 33, 64, 0xFFFF_FFFF, usize::MAX]),
            1 => 31,
            _ => 6 * self.random.below(6),
        };
        self.call(Call::Join(number))
    }

    fn leave(&mut self) -> Result<(), String> {
        let p = self.any_joined();
        self.call(Call::Leave(p, None))
    }

    fn joined(&self) -> Vec<usize> {
        (0..32).filter(|&p| self.world.records[p].is_some()).collect()
    }

    /// A joined point, or point 0.
    fn any_joined(&mut self) -> usize {
        let joined = self.joined();
        if joined.is_empty() {
            0
        } else {
            *self.random.pick(&joined)
        }
    }

    fn with_write(&self, under_way: bool) -> Vec<usize> {
        let is = |p: &usize| {
            self.world.records[*p].as_ref().is_some_and(|r| r.is_idle() != under_way)
        };
        (0..32).filter(is).collect()
    }

    /// A point that is not joined hands in any record with its number.
    fn stranger(&mut self) -> Result<(), String> {
        let unjoined: Vec<usize> = (0..40).filter(|p| !self.joined().contains(p)).collect();
        let p = *self.random.pick(&unjoined);
        let record = Some(self.any_record());
        let call = match self.random.below(4) {
            0 => Call::Begin(p, record, an_offset(&mut self.random), vec![5; 9]),
            1 => Call::Step(p, record),
            2 => Call::BeginRead(p, record, an_offset(&mut self.random), 9),
            _ => Call::Leave(p, record),
        };
        self.call(call)
    }

    /// Another point's record, altered or not, or an arbitrary one.
    fn any_record(&mut self) -> Record {
        let p = self.any_joined();
        let mut record = self.world.records[p].clone().unwrap_or(Record::zero());
        match self.random.below(9) {
            0 => record = Record::zero(),
            1 => record.view.block = self.random.below(2_000),
            2 => record.view.slot = self.random.below(70),
            3 => record.write.phase = Phase::Zeroing,
            4 => record.write.position = self.random.below(400),
            5 => record.write.text_length = usize::MAX,
            6 => record.write.offset = usize::MAX - self.random.below(600),
            7 => record.write.phase = Phase::Reading,
            _ => {}
        }
        record
    }

    /// A point that can begin, mostly.
    fn beginner(&mut self) -> usize {
        let idle = self.with_write(false);
        if idle.is_empty() || self.random.once_in(10) {
            self.any_joined()
        } else {
            *self.random.pick(&idle)
        }
    }

    /// Mostly in the file's first blocks.
    fn offset(&mut self) -> usize {
        match self.random.below(40) {
            0 => usize::MAX - self.random.below(3),
            1..=6 => an_offset(&mut self.random),
            _ => an_offset(&mut self.random) % 2_048,
        }
    }

    fn begin_read(&mut self) -> Result<(), String> {
        let (p, offset) = (self.beginner(), self.offset());
        let length = a_read_length(&mut self.random);
        self.call(Call::BeginRead(p, None, offset, length))
    }

    fn begin(&mut self) -> Result<(), String> {
        let (p, offset) = (self.beginner(), self.offset());
        let length = a_length(&mut self.random);
        let seed = self.random.any();
        let text = (0..length).map(|i| (seed >> (i % 57)) as u8 | 1).collect();
        let begun = self.world.tally.of("begin", "begun");
        self.call(Call::Begin(p, None, offset, text))?;
        let has_begun = self.world.tally.of("begin", "begun") > begun;
        self.barren = if has_begun { 0 } else { self.barren + 1 };
        Ok(())
    }

    /// K6's call: a list of joined points and, now and then, of others; mostly one write
    /// for each.
    fn serve(&mut self) -> Result<(), String> {
        let mut list: Vec<ListedPoint> = self.joined().into_iter().map(|p| (p, None)).collect();
        if !self.random.once_in(4) {
            let busy = self.with_write(true);
            list.retain(|(p, _)| !busy.contains(p));
        }
        if self.random.once_in(6) {
            let (at, p) = (self.random.below(list.len() + 1), self.random.below(40));
            list.insert(at, (p, Some(self.any_record())));
        }
        let shift = self.random.below(list.len().max(1));
        list.rotate_left(shift);
        let count = if self.random.once_in(20) { self.random.below(7) } else { list.len() };
        let writes: Vec<(usize, Vec<u8>)> = some_writes(&mut self.random, count)
            .into_iter()
            .map(|(offset, length, seed)| (offset, vec![seed as u8 | 1; length]))
            .collect();
        let rounds = self.world.serve(&list, &writes)?;
        if rounds > 0 {
            self.served.add(&Served { lists: 1, left: most_rounds(list.len()) - rounds });
        }
        Ok(())
    }

    /// A burst of steps of one point.
    fn steps(&mut self) -> Result<(), String> {
        let busy = self.with_write(true);
        if busy.is_empty() && self.random.once_in(12) {
            let p = self.any_joined();
            return self.call(Call::Step(p, None));
        }
        if busy.is_empty() {
            return self.begin();
        }
        let p = *self.random.pick(&busy);
        let most = *self.random.pick(&[1, 3, 30, 70, 200, 400]);
        for _ in 0..most {
            if self.world.records[p].as_ref().is_none_or(|record| record.is_idle()) {
                return Ok(());
            }
            self.call(Call::Step(p, None))?;
        }
        Ok(())
    }

    /// All busy points step in turn.
    fn together(&mut self) -> Result<(), String> {
        let busy = self.with_write(true);
        for _ in 0..self.random.below(80) {
            for &p in &busy {
                if self.world.records[p].as_ref().is_some_and(|record| !record.is_idle()) {
                    self.call(Call::Step(p, None))?;
                }
            }
        }
        Ok(())
    }

    /// A point with a write or a read under way takes steps alone, on copies.
    fn alone(&mut self) -> Result<(), String> {
        let busy = self.with_write(true);
        if !busy.is_empty() {
            let p = *self.random.pick(&busy);
            let steps = self.world.steps_alone(p)?;
            let (write, read) = if self.world.is_reading(p) { (0, steps) } else { (steps, 0) };
            self.alone.add(&Alone { points: 1, write, read });
        }
        Ok(())
    }
}
