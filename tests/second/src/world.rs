//! Demand 3, looked at by running: a list of calls, and after each call what
//! the image shows beside what the book says.

use crate::book::Book;
use crate::calls;
use crate::image::*;
use crate::log::catch_up;
use crate::open::{open, show};
use crate::reading::begin_read;
use crate::reads::{ended_events, read_moved_events};
use crate::record::*;
use crate::refusal::Refusal;
use crate::serve::{ask_list, most_rounds, row, Turn};
use crate::step::{step, Answer};
use crate::tally::Tally;

/// "a point that from any moment of its write on alone takes steps finishes
/// its write in at most 388 further steps"
pub const MOST_STEPS: usize = 388;
/// "Alone from any moment on, a read ends within 260 steps."
pub const MOST_READ_STEPS: usize = 260;

/// A call of the list. A joined point hands in its newest record, another one
/// the record given here, with its number.
pub enum Call {
    Join(usize),
    Begin(usize, Option<Record>, usize, Vec<u8>),
    BeginRead(usize, Option<Record>, usize, usize),
    Step(usize, Option<Record>),
    Leave(usize, Option<Record>),
}

/// A point of K6's list: its number, and its record where it is not joined.
pub type ListedPoint = (usize, Option<Record>);

/// An opened image, the points' newest records and the book.
pub struct World {
    pub image: Vec<u64>,
    pub shared: Shared,
    pub records: Vec<Option<Record>>,
    book: Book,
    log: Vec<u64>,
    moved: [u64; 32],
    /// What the last step answered.
    last: Option<Answer>,
    /// The calls made, those of K6's rows one by one.
    pub calls: usize,
    pub tally: Tally,
}

fn must(holds: bool, sentence: &str) -> Result<(), String> {
    if holds {
        Ok(())
    } else {
        Err(sentence.to_string())
    }
}

impl World {
    /// Opens an image that opening accepts.
    pub fn new(image: Vec<u64>) -> Result<World, String> {
        let opened = open(&image, &mut [0; 1_024])
            .map_err(|why| format!("the first opening is refused by {}", why.number()))?;
        let shown = show(&image).map_err(|_| "the first image shows nothing".to_string())?;
        let world = World {
            book: Book::new(shown.file(&image)),
            log: shown.log,
            image,
            shared: opened.shared,
            records: vec![None; 32],
            moved: [0; 32],
            last: None,
            calls: 0,
            tally: Tally::default(),
        };
        world.check_image()?;
        Ok(world)
    }

    /// K6's call, "count[ed] as that row, with a cut between any two": each beginning and
    /// step is a call of its own. Answers the rounds, of which there is one for each step of
    /// the point that has most.
    pub fn serve(
        &mut self,
        list: &[ListedPoint],
        writes: &[(usize, Vec<u8>)],
    ) -> Result<usize, String> {
        let numbers: Vec<usize> = list.iter().map(|(number, _)| *number).collect();
        if let Err(why) = ask_list(&numbers, writes.len()) {
            return self.refused("serve", why, &[26, 27]).map(|_| 0);
        }
        let mut steps = vec![0; list.len()];
        let answers = row(list.len(), |turn| match turn {
            Turn::Begin(i) => {
                let ((p, record), (offset, text)) = (list[i].clone(), writes[i].clone());
                let refused = self.call(Call::Begin(p, record, offset, text))?;
                Ok::<_, String>(refused.map(Answer::Refused))
            }
            Turn::Step(i) => {
                steps[i] += 1;
                self.call(Call::Step(list[i].0, None))?;
                Ok(self.last.clone())
            }
        })?;
        for (answer, &steps) in answers.iter().zip(&steps) {
            self.count_end(answer, steps)?;
        }
        let rounds = steps.into_iter().max().unwrap_or(0);
        must(rounds <= most_rounds(list.len()), "the number of rounds")?;
        Ok(rounds)
    }

    /// "In demand 3's lists each write begun ends within these rounds."
    fn count_end(&mut self, answer: &Answer, steps: usize) -> Result<(), String> {
        match answer {
            Answer::Committed(0) => self.tally.count("serve", "committed at once"),
            Answer::Committed(_) => self.tally.count("serve", "committed after moved"),
            Answer::Refused(why) => {
                let allowed: &[u64] =
                    if steps > 0 { &[20, 21] } else { &[11, 14, 15, 16, 17, 19] };
                self.refused("serve", *why, allowed)?;
            }
            _ => return Err("a served write ends within the rounds".to_string()),
        }
        Ok(())
    }

    /// Makes the call and looks at everything; what it is refused by.
    pub fn call(&mut self, call: Call) -> Result<Option<Refusal>, String> {
        self.calls += 1;
        let before = self.image.clone();
        let shared = self.shared.clone();
        let is_of_read = self.is_of_read(&call);
        let refused = match call {
            Call::Join(number) => self.join(number)?,
            Call::Begin(p, record, offset, text) => self.begin(p, record, offset, &text)?,
            Call::BeginRead(p, record, o, l) => self.begin_read(p, record, o, l)?,
            Call::Step(p, record) => self.step(p, record)?,
            Call::Leave(p, record) => self.leave(p, record)?,
        };
        let changed = before.iter().zip(&self.image).filter(|(a, b)| a != b).count();
        must(changed <= 1, "a call changes at most one word")?;
        must(!is_of_read || changed == 0, "a read changes no word")?;
        let reported = Shared { reports: self.shared.reports, ..shared.clone() };
        must(!is_of_read || reported == self.shared, "a read only reports")?;
        if let Some(why) = refused {
            must(changed == 0, "a refused call changes no word")?;
            let ends = matches!(why, Refusal::LogFull | Refusal::NoLogBlock);
            must(ends || shared == self.shared, "a refused call leaves the shared record")?;
        }
        self.check_image()?;
        Ok(refused)
    }

    /// A beginning or a step of a read.
    fn is_of_read(&self, call: &Call) -> bool {
        match call {
            Call::BeginRead(..) => true,
            Call::Step(p, _) => self.is_reading(*p),
            _ => false,
        }
    }

    /// Whether the point is joined and has a read under way.
    pub fn is_reading(&self, p: usize) -> bool {
        let newest = self.records.get(p).and_then(|record| record.as_ref());
        newest.is_some_and(|record| record.write.phase == Phase::Reading)
    }

    fn join(&mut self, number: usize) -> Result<Option<Refusal>, String> {
        match calls::join(&self.image, &self.shared, number) {
            Ok((shared, record)) => {
                self.tally.count("join", "joined");
                must(self.records[number].is_none(), "an unjoined point joins")?;
                self.shared = shared;
                self.records[number] = Some(record);
                Ok(None)
            }
            Err(why) => self.refused("join", why, &[12, 13]),
        }
    }

    fn refused(
        &mut self,
        call: &str,
        why: Refusal,
        allowed: &[u64],
    ) -> Result<Option<Refusal>, String> {
        self.tally.refused(call, why.number());
        must(allowed.contains(&why.number()), &format!("{call} refused by {}", why.number()))?;
        Ok(Some(why))
    }

    /// The record that the point hands in, and whether it is joined.
    fn handed_in(&self, p: usize, record: Option<Record>) -> (Record, bool) {
        match self.records.get(p).cloned().flatten() {
            Some(newest) => (newest, true),
            None => (Record { number: p, ..record.unwrap_or(Record::zero()) }, false),
        }
    }

    fn begin(
        &mut self,
        p: usize,
        record: Option<Record>,
        offset: usize,
        text: &[u8],
    ) -> Result<Option<Refusal>, String> {
        let (record, joined) = self.handed_in(p, record);
        match calls::begin(&self.image, &self.shared, &record, offset, text) {
            Ok((shared, record)) => {
                must(joined, "only a joined point begins")?;
                self.tally.count("begin", "begun");
                self.book.begun(p, offset, text);
                self.moved[p] = 0;
                self.shared = shared;
                self.records[p] = Some(record);
                Ok(None)
            }
            Err(why) if joined => self.refused("begin", why, &[15, 16, 17, 19]),
            Err(why) => self.refused("begin", why, &[11, 14]),
        }
    }

    fn begin_read(
        &mut self,
        p: usize,
        record: Option<Record>,
        offset: usize,
        length: usize,
    ) -> Result<Option<Refusal>, String> {
        let (record, joined) = self.handed_in(p, record);
        match begin_read(&self.image, &self.shared, &record, offset, length) {
            Ok((shared, record)) => {
                must(joined, "only a joined point begins")?;
                self.tally.count("beginread", "begun");
                self.moved[p] = 0;
                self.shared = shared;
                self.records[p] = Some(record);
                Ok(None)
            }
            Err(why) if joined => self.refused("beginread", why, &[15, 16, 17]),
            Err(why) => self.refused("beginread", why, &[11, 14]),
        }
    }

    fn step(&mut self, p: usize, record: Option<Record>) -> Result<Option<Refusal>, String> {
        let (record, joined) = self.handed_in(p, record);
        let (answer, shared, after) = step(&mut self.image, &self.shared, &record);
        if let Answer::Refused(why) = answer {
            let allowed: &[u64] = if joined { &[15, 20, 21] } else { &[11, 14] };
            self.refused("step", why, allowed)?;
            let ends = matches!(why, Refusal::LogFull | Refusal::NoLogBlock);
            must(ends || after == record, "a refused step leaves the record")?;
            let is_link = record.write.phase == Phase::Zeroing;
            must(!is_link || why != Refusal::LogFull, "20 never comes at the link")?;
        }
        must(joined || matches!(answer, Answer::Refused(_)), "only a joined point steps")?;
        if joined {
            self.book.stepped(p, &answer);
            self.shared = shared;
            self.count_step(p, &answer, &record, &after)?;
            self.records[p] = Some(after);
        }
        self.last = Some(answer.clone());
        Ok(match answer {
            Answer::Refused(why) => Some(why),
            _ => None,
        })
    }

    /// "The retry count is the lesser of 65,535 and the Moved answers of this
    /// write."
    fn count_step(
        &mut self,
        p: usize,
        answer: &Answer,
        before: &Record,
        after: &Record,
    ) -> Result<(), String> {
        match answer {
            Answer::Stored => {
                self.tally.count("step", "stored");
                if before.view.block != after.view.block {
                    self.tally.event("linked");
                }
            }
            Answer::Extending => self.tally.count("step", "extending"),
            Answer::Moved if before.write.phase == Phase::Reading => {
                self.tally.count("step", "moved");
                self.tally.events(&read_moved_events(&self.image, before));
                self.check_moved(before, after)?;
            }
            Answer::Moved => {
                self.tally.count("step", "moved");
                self.moved[p] += 1;
            }
            Answer::Copied => self.tally.count("step", "copied"),
            Answer::Read(bytes) => {
                self.tally.count("step", "read");
                self.tally.events(&ended_events(&self.image, before, bytes));
                self.check_bytes(&before.write, bytes)?;
                must(after.write == Write::idle(), "the point is idle after the bytes")?;
            }
            Answer::Committed(retries) => {
                self.tally.count("step", "committed");
                let count = self.moved[p].min(65_535);
                must(u64::from(*retries) == count, "the retry count of the answer")?;
                self.log.push(before.write.entry(p).pack());
            }
            Answer::Refused(_) => {}
        }
        let count = self.moved[p].min(65_535);
        must(after.is_idle() || u64::from(after.write.retries) == count, "the retry count")
    }

    /// "the copy begins again": after Moved a read is what a beginning leaves.
    fn check_moved(&self, before: &Record, after: &Record) -> Result<(), String> {
        let Write { offset, text_length, .. } = before.write;
        let idle = Record { write: Write::idle(), ..before.clone() };
        let again = begin_read(&self.image, &self.shared, &idle, offset, text_length);
        let (_, again) = again.map_err(|why| format!("begun again: {}", why.number()))?;
        must(again == *after, "a moved read is one that begins")
    }

    /// "they are the file's as of that step, 0 past its end"
    fn check_bytes(&self, write: &Write, bytes: &[u8]) -> Result<(), String> {
        must(bytes.len() == write.text_length, "a read answers its whole range")?;
        let same = (0..bytes.len()).all(|i| bytes[i] == self.book.byte(write.offset + i));
        must(same, "the bytes of a read are the book's")
    }

    fn leave(&mut self, p: usize, record: Option<Record>) -> Result<Option<Refusal>, String> {
        let (record, joined) = self.handed_in(p, record);
        match calls::leave(&self.image, &self.shared, &record) {
            Ok(shared) => {
                must(joined, "only a joined point leaves")?;
                self.tally.count("leave", "left");
                self.book.left(p);
                self.shared = shared;
                self.records[p] = None;
                Ok(None)
            }
            Err(why) => self.refused("leave", why, if joined { &[] } else { &[11, 14] }),
        }
    }

    /// Opens the image again and compares file, log and map.
    fn check_image(&self) -> Result<(), String> {
        let mut scratch = vec![9; 1_024];
        let opened = open(&self.image, &mut scratch)
            .map_err(|why| format!("opening again is refused by {}", why.number()))?;
        let shown = show(&self.image).map_err(|_| "the image shows nothing".to_string())?;
        must(opened.length == self.book.file.len(), "the length is the book's")?;
        must(shown.file(&self.image) == self.book.file, "the bytes are the book's")?;
        must(shown.log == self.log, "the log is the old log and the entries committed")?;
        must(opened.entries == self.log.len(), "the count of log entries")?;
        must(opened.shared.reports == [0; 32], "opening reports nothing")?;
        must(opened.shared.chain == shown.chain.len(), "the chain length that opening answers")?;
        self.check_standing(&shown.chain)?;
        for p in (0..32).filter(|&p| self.is_reading(p)) {
            self.records[p].as_ref().map_or(Ok(()), |record| self.check_copy(record))?;
        }
        self.check_map(&scratch)
    }

    /// "for each of the 32 points, the log block of its log place, 0 when not joined, and
    /// the length of the chain". Each stands in the chain.
    fn check_standing(&self, chain: &[usize]) -> Result<(), String> {
        must(self.shared.chain == chain.len(), "the chain length")?;
        for (p, newest) in self.records.iter().enumerate() {
            let block = newest.as_ref().map_or(0, |record| record.view.block);
            must(self.shared.has_joined(p) == newest.is_some(), "the joined points")?;
            must(self.shared.reports[p] == block, "a report is the newest record's log block")?;
            must(newest.is_none() || chain.contains(&block), "a joined point is in the chain")?;
        }
        Ok(())
    }

    /// What a read has copied is the file's, where its final step would not say
    /// Moved for that block or that end; what it has not copied is 0.
    fn check_copy(&self, record: &Record) -> Result<(), String> {
        let Record { view, write, .. } = record;
        let caught = catch_up(&self.image, view).map_err(|_| "a reading point's log is broken")?;
        let is_lengthened = caught.view.length > view.length && write.end() > view.length;
        let copied_end = 8 * (write.offset / 8 + write.position);
        for place in write.offset..write.end() {
            let byte = write.text[place - write.offset];
            let v = place / BLOCK_BYTES;
            let is_stale = is_lengthened || caught.entries.iter().any(|entry| entry.covers(v));
            if place >= copied_end {
                must(byte == 0, "what is not copied is 0")?;
            } else if !is_stale {
                must(byte == self.book.byte(place), "what is copied is the book's")?;
            }
        }
        Ok(())
    }

    /// "Taken are block 0, the log chain, the live blocks and what joined
    /// points hold", nothing held twice.
    fn check_map(&self, scratch: &[u16]) -> Result<(), String> {
        let mut taken: Vec<bool> = scratch.iter().map(|&mark| mark != 0).collect();
        for record in self.records.iter().flatten().filter(|record| record.write.holds_run()) {
            let write = &record.write;
            let mut held: Vec<usize> = (write.run..write.run + write.span()).collect();
            if write.phase == Phase::Zeroing {
                held.push(write.zeroing);
            }
            for block in held {
                must(!taken[block], "nothing is held twice")?;
                taken[block] = true;
            }
        }
        let same = (0..MOST_BLOCKS).all(|block| self.shared.is_taken(block) == taken[block]);
        must(same, "the map's taken blocks")
    }

    /// How many steps the point needs alone from here, on copies.
    pub fn steps_alone(&self, p: usize) -> Result<usize, String> {
        let mut image = self.image.clone();
        let mut shared = self.shared.clone();
        let mut record = self.records[p].clone().ok_or("the point is joined")?;
        let most = if self.is_reading(p) { MOST_READ_STEPS } else { MOST_STEPS };
        for steps in 1..=most {
            let (answer, shared_after, record_after) = step(&mut image, &shared, &record);
            match answer {
                Answer::Committed(_)
                | Answer::Read(_)
                | Answer::Refused(Refusal::LogFull | Refusal::NoLogBlock) => return Ok(steps),
                Answer::Refused(why) => return Err(format!("alone refused by {}", why.number())),
                _ => {}
            }
            shared = shared_after;
            record = record_after;
        }
        Err(format!("a point alone finishes within {most} steps"))
    }
}

/// The case that needs all 388 steps: a write of 514 bytes at offset 511 spans
/// three blocks; another's entry into slot 63 covers both its edges.
pub fn longest_case() -> Result<usize, String> {
    let mut image = vec![0; 64 * 16];
    lay_out(&mut image).map_err(|_| "laying out")?;
    for slot in FIRST_SLOT..END_SLOT - 1 {
        image[place_of(1, slot)] = Entry { v: 9, b: 15, n: 1, u: 512, point: 0, rest: 0 }.pack();
    }
    let mut world = World::new(image)?;
    world.call(Call::Join(1))?;
    world.call(Call::Join(2))?;
    world.call(Call::Begin(2, None, 511, vec![1; 514]))?;
    for _ in 0..192 {
        world.call(Call::Step(2, None))?;
    }
    world.call(Call::Begin(1, None, 511, vec![2; 514]))?;
    world.call(Call::Step(2, None))?;
    must(world.tally.of("step", "committed") == 1, "the other point has committed")?;
    let steps = world.steps_alone(1)?;
    for _ in 0..steps {
        world.call(Call::Step(1, None))?;
    }
    must(world.tally.of("step", "committed") == 2, "both have committed")?;
    Ok(steps)
}

/// The case that needs all 260 steps: a read of 1,024 bytes at offset 1 touches
/// 129 words; another commits over block 0 after the beginning.
pub fn longest_read() -> Result<usize, String> {
    let mut image = vec![0; 64 * 16];
    lay_out(&mut image).map_err(|_| "laying out")?;
    let mut world = World::new(image)?;
    world.call(Call::Join(1))?;
    world.call(Call::Join(2))?;
    world.call(Call::BeginRead(1, None, 1, 1_024))?;
    world.call(Call::Begin(2, None, 0, vec![2; 1]))?;
    for _ in 0..65 {
        world.call(Call::Step(2, None))?;
    }
    must(world.tally.of("step", "committed") == 1, "the other point has committed")?;
    let steps = world.steps_alone(1)?;
    for _ in 0..steps {
        world.call(Call::Step(1, None))?;
    }
    must(world.tally.of("step", "read") == 1, "the read has ended")?;
    Ok(steps)
}

/// The most rounds that are known: all points have the same write of 514 bytes at offset
/// 511, and the log is one entry short of full for each of them but one.
pub fn longest_serve(count: usize) -> Result<usize, String> {
    let (mut world, list, writes) = longest_list(count)?;
    let rounds = world.serve(&list, &writes)?;
    let ends = ["committed at once", "committed after moved"].map(|end| world.tally.of("serve", end));
    must(ends == [1, count as u64 - 1], "all have committed, and all but one after Moved")?;
    Ok(rounds)
}

/// That list, its writes, and the world with its points.
pub fn longest_list(count: usize) -> Result<(World, Vec<ListedPoint>, Vec<(usize, Vec<u8>)>), String> {
    let mut image = vec![0; 64 * (8 + 4 * count)];
    lay_out(&mut image).map_err(|_| "laying out")?;
    for slot in FIRST_SLOT..END_SLOT + 1 - count {
        image[place_of(1, slot)] = Entry { v: 9, b: 7, n: 1, u: 512, point: 0, rest: 0 }.pack();
    }
    let mut world = World::new(image)?;
    for p in 0..count {
        world.call(Call::Join(p))?;
    }
    let list = (0..count).map(|p| (p, None)).collect();
    let writes = (0..count).map(|p| (511, vec![p as u8 + 1; 514])).collect();
    Ok((world, list, writes))
}
