//! What must come up: each answer and refusal of each call, some turns of a
//! step, and the inputs that C alone can bring.

use second::tally::Tally;

use crate::c::*;

/// Each call with its answers and the refusals that the header lists for it.
pub const CALLS: [(&str, &[&str], &[u32]); 14] = [
    ("lay_out", &["done"], &[1]),
    ("open", &["done"], &[1, 2, 3, 4, 5, 6, 7, 8, 9]),
    ("list", &["done"], &[1, 2, 3, 4, 5, 6, 7, 8, 9]),
    ("join", &["done"], &[10, 12, 13, 18]),
    ("begin", &["done"], &[10, 11, 14, 15, 16, 17, 18, 19]),
    ("begin_read", &["done"], &[10, 11, 14, 15, 16, 17, 18]),
    (
        "step",
        &["stored", "moved", "extending", "committed", "copied", "bytes"],
        &[10, 11, 14, 15, 18, 20, 21],
    ),
    ("serve", &["done", "beside its row"], &[26, 27]),
    ("served", &["committed"], &[10, 11, 14, 15, 16, 17, 18, 19, 20, 21]),
    ("leave", &["done"], &[10, 11, 14]),
    ("read", &["done"], &[10, 11, 14, 18]),
    ("locate", &["done"], &[10, 11, 14, 17, 18, 22]),
    ("view", &["done"], &[10, 11, 14, 17, 18, 22]),
    ("behind", &["by none", "by some"], &[]),
];

/// Turns of a write's step, alone and in a list that is served.
const TURNS: [&str; 8] = [
    "linked",
    "lost link",
    "refills nothing",
    "refills first",
    "refills last",
    "refills both",
    "committed after moved",
    "a write's 18",
];

/// Those that a list has none of: in it every write is begun anew, with fewer
/// than 64 log blocks where it takes one.
const OTHER_TURNS: [&str; 3] = ["20 at the link", "a read begins again", "a read's 18"];

/// What lists must bring.
const LISTS: [&str; 17] = [
    "of no points",
    "of one point",
    "of 32 points",
    "of 33 points",
    "of more points",
    "with tables too few or too many",
    "with texts too few or too many",
    "with answers too few or too many",
    "with writes too few or too many",
    "with bytes too few or too many",
    "with sizes that wrap",
    "with a place twice",
    "with a number above 31 twice",
    "with heads beyond 32 bits",
    "with bytes beyond 32 bits",
    "with an image beyond 32 bits",
    "with a read under way",
];

const INPUTS: [&str; 17] = [
    "an image of 0 words",
    "an image of no multiple of 64 words",
    "an image beyond 32 bits",
    "a scratch of 0",
    "a longer scratch",
    "a scratch beyond 32 bits",
    "0 bytes to write",
    "bytes to write beyond 32 bits",
    "an offset to write at beyond 32 bits",
    "a range of 0",
    "a range beyond 32 bits",
    "a range that begins beyond 32 bits",
    "a buffer of 0",
    "a buffer beyond 32 bits",
    "an offset to read at beyond 32 bits",
    "a block beyond 32 bits",
    "a record's number above 31",
];

/// Calls with a point's record, whose phase may be above 6 and whose retry
/// count above 65,535.
const WITH_RECORD: [&str; 7] = ["begin", "begin_read", "step", "leave", "read", "locate", "view"];

/// Counting, in the words of the table.
pub trait Counting {
    fn answered(&mut self, call: &str, refused: u32);
    fn stepped(&mut self, answer: Answer, before: &Head, after: &Head);
    fn turned(&mut self, who: &str, answer: Answer, before: &Head, after: &Head);
    fn served(&mut self, answer: Served);
    fn refused_record(&mut self, call: &str, before: &Head, refused: u32);
    fn input_if(&mut self, is: bool, input: &str);
}

impl Counting for Tally {
    fn answered(&mut self, call: &str, refused: u32) {
        match refused {
            0 => self.count(call, "done"),
            why => self.refused(call, u64::from(why)),
        }
    }

    fn stepped(&mut self, answer: Answer, before: &Head, after: &Head) {
        match answer.kind {
            STORED => self.count("step", "stored"),
            MOVED => self.count("step", "moved"),
            EXTENDING => self.count("step", "extending"),
            COMMITTED => self.count("step", "committed"),
            COPIED => self.count("step", "copied"),
            BYTES => self.count("step", "bytes"),
            _ => self.refused("step", u64::from(answer.value)),
        }
        self.turned("turn", answer, before, after);
    }

    fn served(&mut self, answer: Served) {
        match answer.kind {
            COMMITTED => self.count("served", "committed"),
            REFUSED => self.refused("served", u64::from(answer.value)),
            _ => self.count("served", "unfinished"),
        }
    }

    fn turned(&mut self, who: &str, answer: Answer, before: &Head, after: &Head) {
        let was_zeroing = before.phase == 5;
        let turn = match (answer.kind, after.phase) {
            (STORED, 1) if was_zeroing => "linked",
            (MOVED, _) if was_zeroing => "lost link",
            (REFUSED, _) if was_zeroing && answer.value == 20 => "20 at the link",
            (MOVED, 1) => "refills nothing",
            (MOVED, 2) => "refills first",
            (MOVED, 3) => "refills last",
            (MOVED, 4) => "refills both",
            (MOVED, READING) => "a read begins again",
            (REFUSED, READING) if answer.value == 18 => "a read's 18",
            (COMMITTED, _) if answer.value > 0 => "committed after moved",
            (REFUSED, _) if answer.value == 18 => "a write's 18",
            _ => return,
        };
        self.count(who, turn);
    }

    fn refused_record(&mut self, call: &str, before: &Head, refused: u32) {
        self.input_if(refused == 14 && before.number > 31, "a record's number above 31");
        if before.phase > READING {
            self.count("phase above 6", &format!("{call} {refused}"));
        } else if before.retries > 65_535 {
            self.count("retries above 65,535", &format!("{call} {refused}"));
        }
    }

    fn input_if(&mut self, is: bool, input: &str) {
        if is {
            self.count("input", input);
        }
    }
}

/// All that must come up, line by line.
fn lines() -> Vec<(&'static str, Vec<String>)> {
    let refused = |why: &u32| format!("refused {why}");
    let mut lines: Vec<(&str, Vec<String>)> = CALLS
        .iter()
        .map(|(call, answers, refusals)| {
            let answers = answers.iter().map(|answer| answer.to_string());
            (*call, answers.chain(refusals.iter().map(refused)).collect())
        })
        .collect();
    let refusals: Vec<String> = WITH_RECORD.iter().flat_map(|call| [format!("{call} 10"), format!("{call} 11")]).collect();
    lines.push(("phase above 6", refusals.clone()));
    lines.push(("retries above 65,535", refusals));
    lines.push(("turn", [TURNS.map(String::from).to_vec(), OTHER_TURNS.map(String::from).to_vec()].concat()));
    lines.push(("turn of a list", TURNS.map(String::from).to_vec()));
    lines.push(("list", LISTS.map(String::from).to_vec()));
    lines.push(("input", INPUTS.map(String::from).to_vec()));
    lines
}

/// Prints the counts; answers how many things never came up.
pub fn report(tally: &Tally) -> usize {
    let mut missing = Vec::new();
    for (call, things) in lines() {
        let counts: Vec<String> =
            things.iter().map(|thing| format!("{thing}: {}", tally.of(call, thing))).collect();
        println!("{call}: {}", counts.join(", "));
        missing.extend(
            things.iter().filter(|thing| tally.of(call, thing) == 0).map(|thing| format!("{call}: {thing}")),
        );
    }
    for thing in &missing {
        println!("never met: {thing}");
    }
    missing.len()
}
