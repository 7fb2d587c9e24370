//! The session program: an interpreter of bench scripts.

use std::convert::Infallible;

use crate::calls;
use crate::digest::*;
use crate::image::lay_out;
use crate::image::MOST_BLOCKS;
use crate::log::{catch_up, Broken};
use crate::open::open;
use crate::reading::begin_read;
use crate::reads::*;
use crate::record::*;
use crate::refusal::Refusal;
use crate::reports::*;
use crate::searches::*;
use crate::serve::{ask_list, row, take_turn, Turn};
use crate::serves::*;
use crate::step::{step, Answer};
use crate::tally::Tally;
use crate::words::*;

/// "At most 262,144 bytes"
pub const MOST_INPUT: usize = 262_144;
/// "An image of 0 to 65,600 words"
pub const MOST_WORDS: u64 = 65_600;
/// The largest number below 2^32.
pub const MOST_32: u64 = 0xFFFF_FFFF;

/// `serve N M ...`: "N and M 0 to 40".
pub const MOST_LISTED: u64 = 40;

/// Every command.
pub const COMMANDS: [&str; 29] = [
    "image", "noise", "set", "word", "layout", "open", "cut", "join", "joinas", "begin", "step",
    "leave", "read", "show", "locate", "view", "record", "shared", "alter", "table", "text",
    "altershared", "map", "copy", "digest", "free", "beginread", "report",
    "serve",
];

/// "What the bench holds", and a tally of what was answered.
#[derive(Clone)]
pub struct Bench {
    pub image: Vec<u64>,
    pub shared: Shared,
    pub records: Vec<Record>,
    pub tally: Tally,
}

impl Default for Bench {
    fn default() -> Bench {
        Bench::new()
    }
}

/// A whole script's output.
pub fn run(script: &[u8]) -> Vec<u8> {
    let mut bench = Bench::new();
    bench.script(script)
}

impl Bench {
    pub fn new() -> Bench {
        Bench {
            image: Vec::new(),
            shared: Shared::zero(),
            records: vec![Record::zero(); 32],
            tally: Tally::default(),
        }
    }

    /// A whole script's output.
    pub fn script(&mut self, script: &[u8]) -> Vec<u8> {
        if script.len() > MOST_INPUT {
            return b"error long\n".to_vec();
        }
        let mut output = String::new();
        for line in lines(script) {
            output.push_str(&self.line(line));
        }
        output.into_bytes()
    }

    /// One line's output: nothing, `error`, or a command's lines.
    pub fn line(&mut self, line: &[u8]) -> String {
        let words = words(line);
        if words.is_empty() || words[0][0] == b'#' {
            return String::new();
        }
        match self.command(&words) {
            Some(output) => {
                self.tally.count("command", &String::from_utf8_lossy(words[0]));
                output + "\n"
            }
            None => "error\n".to_string(),
        }
    }

    /// The command's output without its last line feed; None for a malformed
    /// line.
    fn command(&mut self, words: &[&[u8]]) -> Option<String> {
        match words {
            [b"image", w] => self.make_image(at_most(w, MOST_WORDS)?),
            [b"noise", a, n, s] => self.make_noise(number(a)?, number(n)?, number(s)?),
            [b"set", a, v] => self.set(number(a)?, number(v)?),
            [b"word", a] => self.word(number(a)?),
            [b"layout"] => self.layout(),
            [b"open", s] => self.open(at_most(s, 2_048)?),
            [b"cut"] => self.cut(),
            [b"join", p] => self.join("join", point(p)?),
            [b"joinas", n] => self.join("join", at_most(n, MOST_32)?),
            [b"begin", p, write @ ..] => self.begin(point(p)?, a_write(write)?),
            [b"beginread", p, o, l] => {
                self.begin_read(point(p)?, at_most(o, MOST_32)?, at_most(l, 1_100)?)
            }
            [b"serve", n, m, rest @ ..] => {
                self.serve_line(at_most(n, MOST_LISTED)?, at_most(m, MOST_LISTED)?, rest)
            }
            [b"step", p, k] => self.steps(point(p)?, at_most(k, 100_000)?),
            [b"leave", p] => self.leave(point(p)?),
            [b"read", p, o, l] => self.read(point(p)?, at_most(o, MOST_32)?, at_most(l, 4_096)?),
            [b"show", p, o, l] => self.show(point(p)?, at_most(o, MOST_32)?, at_most(l, 64)?),
            [b"locate", p, v] => self.locate(point(p)?, at_most(v, MOST_32)?),
            [b"view", p, v] => self.view(point(p)?, at_most(v, MOST_32)?),
            [b"record", p] => self.record(point(p)?),
            [b"shared"] => self.show_shared(),
            [b"digest"] => Some(format!("digest {}", digest_words(&self.image))),
            [b"free"] => self.free(),
            _ => self.alter_command(words),
        }
    }

    fn forget(&mut self) {
        self.shared = Shared::zero();
        self.records = vec![Record::zero(); 32];
    }

    fn make_image(&mut self, words: usize) -> Option<String> {
        self.image = vec![0; words];
        self.forget();
        Some(format!("image {words}"))
    }

    fn make_noise(&mut self, first: u64, count: u64, seed: u64) -> Option<String> {
        let end = first.checked_add(count)?;
        if end > self.image.len() as u64 {
            return None;
        }
        noise(&mut self.image[first as usize..end as usize], seed);
        Some("noise".to_string())
    }

    fn set(&mut self, place: u64, value: u64) -> Option<String> {
        *self.image.get_mut(usize::try_from(place).ok()?)? = value;
        Some("set".to_string())
    }

    fn word(&self, place: u64) -> Option<String> {
        let word = self.image.get(usize::try_from(place).ok()?)?;
        Some(format!("word {word}"))
    }

    fn refused(&mut self, call: &str, why: Refusal) -> String {
        self.tally.refused(call, why.number());
        if why == Refusal::SharedUnfit {
            self.tally.events(&unfit_shared_events(&self.shared, self.image.len()));
        }
        format!("refused {}", why.number())
    }

    fn layout(&mut self) -> Option<String> {
        Some(match lay_out(&mut self.image) {
            Ok(()) => {
                self.tally.count("layout", "laid out");
                "laid out".to_string()
            }
            Err(why) => self.refused("layout", why),
        })
    }

    fn open(&mut self, scratch: usize) -> Option<String> {
        let mut scratch = vec![7; scratch];
        self.forget();
        let answer = match open(&self.image, &mut scratch) {
            Ok(opened) => {
                self.tally.count("open", "opened");
                self.shared = opened.shared;
                format!(
                    "opened length {} entries {} free {}",
                    opened.length, opened.entries, opened.free
                )
            }
            Err(why) => self.refused("open", why),
        };
        Some(format!("{answer} scratch {}", digest_numbers(&scratch)))
    }

    fn cut(&mut self) -> Option<String> {
        self.forget();
        Some("cut".to_string())
    }

    fn join(&mut self, call: &str, number: usize) -> Option<String> {
        Some(match calls::join(&self.image, &self.shared, number) {
            Ok((shared, record)) => {
                self.tally.count(call, "joined");
                self.count_report("joining", number, number, &shared);
                self.shared = shared;
                self.records[number] = record;
                "joined".to_string()
            }
            Err(why) => self.refused(call, why),
        })
    }

    fn begin(&mut self, p: usize, (offset, text): (usize, Vec<u8>)) -> Option<String> {
        let before = self.records[p].clone();
        Some(match calls::begin(&self.image, &self.shared, &before, offset, &text) {
            Ok((shared, record)) => {
                self.tally.count("begin", "begun");
                self.tally.events(&found_events(&self.shared, record.write.span()));
                self.tally.events(&caught_events(&self.image, &before.view));
                self.count_report("a write's beginning", p, before.number, &shared);
                let run = record.write.run;
                self.shared = shared;
                self.records[p] = record;
                format!("begun run {run}")
            }
            Err(why) => {
                if why == Refusal::LogBroken {
                    self.broken_event(&before, "a write's beginning");
                }
                self.refusal_events(why, &before, false);
                if why == Refusal::NoRun {
                    let write = Write { offset, text_length: text.len(), ..Write::idle() };
                    self.tally.events(&no_run_events(&self.shared, write.span()));
                    self.count_private(p, "19");
                }
                self.refused("begin", why)
            }
        })
    }

    fn begin_read(&mut self, p: usize, offset: usize, length: usize) -> Option<String> {
        let before = self.records[p].clone();
        Some(match begin_read(&self.image, &self.shared, &before, offset, length) {
            Ok((shared, record)) => {
                self.tally.count("beginread", "begun");
                self.tally.events(&begun_events(&before, &record));
                self.tally.events(&caught_events(&self.image, &before.view));
                self.count_report("a read's beginning", p, before.number, &shared);
                self.shared = shared;
                self.records[p] = record;
                "begun".to_string()
            }
            Err(why) => {
                self.refusal_events(why, &before, true);
                self.refused("beginread", why)
            }
        })
    }

    /// The words after N and M: N places, then M writes.
    fn serve_line(&mut self, n: usize, m: usize, rest: &[&[u8]]) -> Option<String> {
        if rest.len() != n + 3 * m {
            return None;
        }
        let places: Option<Vec<usize>> = rest[..n].iter().map(|word| point(word)).collect();
        let writes: Option<Vec<_>> = rest[n..].chunks(3).map(a_write).collect();
        Some(self.serve(&places?, &writes?))
    }

    /// K6's call, "lent a list of N records, those of places P1 to PN in this order, with M
    /// writes".
    fn serve(&mut self, places: &[usize], writes: &[(usize, Vec<u8>)]) -> String {
        let numbers: Vec<usize> = places.iter().map(|&p| self.records[p].number).collect();
        if let Err(why) = ask_list(&numbers, writes.len()) {
            self.count_unserved(places, &numbers, writes.len());
            return self.refused("serve", why);
        }
        let mut seen = Seen::new(places.len());
        let Ok(answers) = row(places.len(), |turn| {
            Ok::<_, Infallible>(self.turn(turn, places, writes, &mut seen))
        });
        self.count_served(places, &answers, &seen);
        let lines = places.iter().zip(answers);
        let lines = lines.map(|(p, answer)| format!("served {p} {}", stretch_line((answer, 1))));
        lines.collect::<Vec<String>>().join("\n")
    }

    /// A beginning or a step of the row, of place P's record.
    fn turn(
        &mut self,
        turn: Turn,
        places: &[usize],
        writes: &[(usize, Vec<u8>)],
        seen: &mut Seen,
    ) -> Option<Answer> {
        let (Turn::Begin(i) | Turn::Step(i)) = turn;
        let before = self.records[places[i]].clone();
        let (answer, shared, record) =
            take_turn(turn, &mut self.image, &self.shared, &before, &writes[i]);
        seen.turn(turn, &before, &record, answer.as_ref());
        self.shared = shared;
        self.records[places[i]] = record;
        answer
    }

    /// What a refused beginning or step says of reads.
    fn refusal_events(&mut self, why: Refusal, record: &Record, begins_read: bool) {
        match why {
            Refusal::RecordUnfit => self.tally.events(&unfit_events(record, self.shared.blocks)),
            Refusal::WrongMoment => self.tally.events(&busy_events(record, begins_read)),
            Refusal::LogBroken if begins_read => self.broken_event(record, "a read's beginning"),
            _ => {}
        }
    }

    /// Up to `count` steps: "one line for each longest stretch of equal
    /// answers".
    fn steps(&mut self, p: usize, count: usize) -> Option<String> {
        if count == 0 {
            return None;
        }
        let mut stretches: Vec<(Answer, usize)> = Vec::new();
        for _ in 0..count {
            let answer = self.one_step(p);
            let is_last =
                matches!(answer, Answer::Committed(_) | Answer::Read(_) | Answer::Refused(_));
            match stretches.last_mut() {
                Some((last, times)) if *last == answer => *times += 1,
                _ => stretches.push((answer, 1)),
            }
            if is_last {
                break;
            }
        }
        let lines: Vec<String> = stretches.into_iter().map(stretch_line).collect();
        Some(lines.join("\n"))
    }

    /// One step of place P's record.
    pub fn one_step(&mut self, p: usize) -> Answer {
        let before = self.records[p].clone();
        let (answer, shared, record) = step(&mut self.image, &self.shared, &before);
        self.step_events(&answer, &before, &record);
        self.count_standing(p, &answer, &before, &shared);
        self.shared = shared;
        self.records[p] = record;
        answer
    }

    /// While the shared record is still the one handed in.
    fn step_events(&mut self, answer: &Answer, before: &Record, after: &Record) {
        match answer {
            Answer::Stored => {
                self.tally.count("step", "stored");
                if before.write.phase == Phase::Zeroing && after.write.phase == Phase::Filling {
                    self.tally.event("linked");
                }
            }
            Answer::Extending => {
                self.tally.count("step", "extending");
                self.tally.events(&found_events(&self.shared, 1));
                self.tally.events(&extending_events(&self.shared));
            }
            Answer::Moved => {
                self.tally.count("step", "moved");
                self.moved_events(before, after);
            }
            Answer::Copied => {
                self.tally.count("step", "copied");
                self.tally.events(&copied_events(&self.image, before, self.shared.blocks));
            }
            Answer::Read(bytes) => {
                self.tally.count("step", "read");
                self.tally.events(&caught_events(&self.image, &before.view));
                self.tally.events(&ended_events(&self.image, before, bytes));
            }
            Answer::Committed(retries) => {
                self.tally.count("step", "committed");
                if *retries > 0 {
                    self.tally.event("committed after moved");
                }
                if self.shared.is_chain_full() {
                    self.tally.event("committed, chain length 64");
                }
            }
            Answer::Refused(why) => self.refused_step_events(*why, before),
        }
    }

    fn refused_step_events(&mut self, why: Refusal, before: &Record) {
        self.refused("step", why);
        match why {
            Refusal::LogFull => self.tally.event("20 after work"),
            Refusal::NoLogBlock => {
                self.tally.event("21 after work");
                self.tally.events(&no_log_block_events(&self.shared));
            }
            Refusal::LogBroken => {
                if before.write.phase == Phase::Reading {
                    self.broken_event(before, "a read's final step");
                    self.tally.events(&broken_read_events(&self.image, before));
                } else {
                    self.broken_event(before, "a write's step");
                }
            }
            _ => self.refusal_events(why, before, false),
        }
    }

    fn moved_events(&mut self, before: &Record, after: &Record) {
        if before.write.phase == Phase::Zeroing {
            self.tally.event("moved by a lost link");
            return;
        }
        self.tally.events(&caught_events(&self.image, &before.view));
        if before.write.phase == Phase::Reading {
            self.tally.events(&read_moved_events(&self.image, before));
            return;
        }
        self.tally.event(match after.write.phase {
            Phase::RefillingFirst => "moved, refills first",
            Phase::RefillingLast => "moved, refills last",
            Phase::RefillingBoth => "moved, refills both",
            _ => "moved, refills nothing",
        });
        if after.view.block != before.view.block {
            self.tally.event("moved into a next block");
        }
    }

    /// Counts by what catching up meets 18, and at what.
    fn broken_event(&mut self, record: &Record, at: &str) {
        match catch_up(&self.image, &record.view) {
            Err(Broken::Entry) => self.tally.event("18 by an entry"),
            Err(Broken::Next) => self.tally.event("18 by a next index"),
            Err(Broken::TooLong) => self.tally.event(&format!("18 by a circle at {at}")),
            Ok(_) => {}
        }
    }

    fn leave(&mut self, p: usize) -> Option<String> {
        Some(match calls::leave(&self.image, &self.shared, &self.records[p]) {
            Ok(shared) => {
                self.tally.count("leave", "left");
                self.count_report("leaving", p, self.records[p].number, &shared);
                self.tally.events(&left_events(&self.shared, &self.records[p]));
                match self.records[p].write.phase {
                    Phase::Idle | Phase::Reading => {}
                    Phase::Zeroing => self.tally.event("left while zeroing"),
                    _ => self.tally.event("left while filling"),
                }
                self.shared = shared;
                self.records[p] = Record::zero();
                "left".to_string()
            }
            Err(why) => self.refused("leave", why),
        })
    }

    fn read(&mut self, p: usize, offset: usize, length: usize) -> Option<String> {
        let mut buffer = vec![170; length];
        let record = &self.records[p];
        let answer = match calls::read(&self.image, &self.shared, record, offset, &mut buffer) {
            Ok(count) => {
                self.tally.count("read", "read");
                self.at_once(p, "read at once while reading");
                format!("read {count}")
            }
            Err(why) => self.refused_at_once("read", p, why),
        };
        Some(format!("{answer} digest {}", digest_bytes(&buffer)))
    }

    fn show(&mut self, p: usize, offset: usize, length: usize) -> Option<String> {
        let mut buffer = vec![170; length];
        let record = &self.records[p];
        Some(match calls::read(&self.image, &self.shared, record, offset, &mut buffer) {
            Ok(count) => {
                self.tally.count("show", "show");
                self.at_once(p, "shown while reading");
                let bytes: Vec<String> =
                    buffer[..count].iter().map(|byte| format!("{byte:02x}")).collect();
                format!("show {}", bytes.concat()).trim_end().to_string()
            }
            Err(why) => self.refused_at_once("show", p, why),
        })
    }

    fn locate(&mut self, p: usize, v: usize) -> Option<String> {
        Some(match calls::locate(&self.image, &self.shared, &self.records[p], v) {
            Ok(block) => {
                self.tally.count("locate", "located");
                self.at_once(p, "located while reading");
                format!("located {block}")
            }
            Err(why) => self.refused_at_once("locate", p, why),
        })
    }

    fn view(&mut self, p: usize, v: usize) -> Option<String> {
        let located = calls::locate(&self.image, &self.shared, &self.records[p], v);
        let part = calls::view(&self.image, &self.shared, &self.records[p], v);
        let place = (part.as_ptr() as usize - self.image.as_ptr() as usize) / 8;
        let (is_empty, digest) = (part.is_empty(), digest_words(part));
        if let Err(why) = located {
            self.refused_at_once("view", p, why);
        }
        if is_empty {
            self.tally.count("view", "empty");
            return Some("view empty".to_string());
        }
        self.tally.count("view", "view");
        self.at_once(p, "viewed while reading");
        Some(format!("view {place} digest {digest}"))
    }

    /// A call that catches up privately; the event where place P's record has a read
    /// under way.
    fn at_once(&mut self, p: usize, event: &str) {
        if self.records[p].write.phase == Phase::Reading {
            self.tally.event(event);
        }
        self.count_private(p, "a call at once");
    }

    /// The same, refused.
    fn refused_at_once(&mut self, call: &str, p: usize, why: Refusal) -> String {
        if why == Refusal::LogBroken {
            let record = self.records[p].clone();
            self.broken_event(&record, "a call at once");
        }
        self.refused(call, why)
    }

    fn record(&self, p: usize) -> Option<String> {
        let Record { number, view, write } = &self.records[p];
        let numbers = [
            *number as u64,
            view.length as u64,
            view.block as u64,
            view.slot as u64,
            write.phase.number(),
            write.offset as u64,
            write.text_length as u64,
            write.run as u64,
            write.position as u64,
            write.zeroing as u64,
            u64::from(write.retries),
            digest_numbers(&view.table),
            digest_bytes(&write.text),
        ];
        Some(format!("record {}", numbers.map(|n| n.to_string()).join(" ")))
    }

    fn show_shared(&self) -> Option<String> {
        let Shared { blocks, joined, map, chain, reports } = &self.shared;
        let map = digest_words(map);
        let reports = digest_words(&reports.map(|block| block as u64));
        Some(format!("shared {blocks} {joined} {map} {chain} {reports}"))
    }

    /// "the count of blocks below the shared record's block count (at most
    /// 1,024 of them) whose map bit is 0"
    fn free(&self) -> Option<String> {
        let blocks = self.shared.blocks.min(MOST_BLOCKS);
        let free = (0..blocks).filter(|&block| !self.shared.is_taken(block)).count();
        Some(format!("free {free}"))
    }

}

/// "P is a number from 0 to 31"
pub fn point(word: &[u8]) -> Option<usize> {
    at_most(word, 31)
}

/// O, L and S of a write: "at offset O of L bytes, byte i being (S + 7 × i) mod 256".
fn a_write(words: &[&[u8]]) -> Option<(usize, Vec<u8>)> {
    let [o, l, s] = words else { return None };
    let (length, seed) = (at_most(l, 1_100)?, at_most(s, 255)?);
    let text = (0..length).map(|i| ((seed + 7 * i) % 256) as u8).collect();
    Some((at_most(o, MOST_32)?, text))
}

/// "the answer, then ` x C` where the stretch has C > 1"
fn stretch_line((answer, times): (Answer, usize)) -> String {
    let answer = match answer {
        Answer::Stored => "stored".to_string(),
        Answer::Extending => "extending".to_string(),
        Answer::Moved => "moved".to_string(),
        Answer::Committed(retries) => format!("committed {retries}"),
        Answer::Copied => "copied".to_string(),
        Answer::Read(bytes) => format!("read {} digest {}", bytes.len(), digest_bytes(&bytes)),
        Answer::Refused(why) => format!("refused {}", why.number()),
    };
    if times > 1 {
        format!("{answer} x {times}")
    } else {
        answer
    }
}
