//! How often each answer and refusal of each call came up.

use std::collections::BTreeMap;

/// By call: what it answered, or what happened inside it.
#[derive(Clone, Debug, Default)]
pub struct Tally {
    counts: BTreeMap<String, BTreeMap<String, u64>>,
}

/// "Which call gives which refusal", with the answers.
pub const TABLE: [(&str, &[&str], &[u64]); 12] = [
    ("layout", &["laid out"], &[1]),
    ("open", &["opened"], &[1, 2, 3, 4, 5, 6, 7, 8, 9]),
    ("join", &["joined"], &[10, 12, 13, 18]),
    ("begin", &["begun"], &[10, 11, 14, 15, 16, 17, 18, 19]),
    ("beginread", &["begun"], &[10, 11, 14, 15, 16, 17, 18]),
    (
        "step",
        &["stored", "extending", "moved", "committed", "copied", "read"],
        &[10, 11, 14, 15, 18, 20, 21],
    ),
    (
        "serve",
        &["committed at once", "committed after moved", "stored", "moved", "extending"],
        &[10, 11, 14, 15, 16, 17, 18, 19, 20, 21, 26, 27],
    ),
    ("leave", &["left"], &[10, 11, 14]),
    ("read", &["read"], &[10, 11, 14, 18]),
    ("show", &["show"], &[10, 11, 14, 18]),
    ("locate", &["located"], &[10, 11, 14, 17, 18, 22]),
    ("view", &["view", "empty"], &[10, 11, 14, 17, 18, 22]),
];

/// What happens inside the calls and is to be met too.
pub const EVENTS: [&str; 170] = [
    "linked",
    "moved by a lost link",
    "moved, refills nothing",
    "moved, refills first",
    "moved, refills last",
    "moved, refills both",
    "moved into a next block",
    "committed after moved",
    "committed, chain length 64",
    "18 by an entry",
    "18 by a next index",
    "18 by a circle at a write's beginning",
    "18 by a circle at a read's beginning",
    "18 by a circle at a write's step",
    "18 by a circle at a read's final step",
    "18 by a circle at a call at once",
    "20 after work",
    "21 after work",
    "found, not the first that fits",
    "found, lowest of equals",
    "found, not the longest",
    "found, first blocks of a longer one",
    "found, up to the last block",
    "found, beside a clear bit 0",
    "found, before clear bits past the end",
    "found, before set bits past the end",
    "found, run across map words",
    "found, over a whole map word",
    "found, among 100 stretches",
    "extending, not the lowest free block",
    "19 for 2 blocks, enough free",
    "19 for 3 blocks, enough free",
    "19 beside a clear bit 0",
    "19 before clear bits past the end",
    "21 beside a clear bit 0",
    "21 before clear bits past the end",
    "left while zeroing",
    "left while filling",
    "read begun after catching up",
    "read begun, write fields not 0",
    "copied in a hole",
    "copied past the end",
    "copied past the end, not 0 there",
    "copied, other bytes there by now",
    "copied past the end, longer by now",
    "copied a part of a word",
    "copied, run, zeroing or retries not 0",
    "copied, run outside the image",
    "read moved, its one block covered",
    "read moved, only its first block covered",
    "read moved, only its middle block covered",
    "read moved, only its last block covered",
    "read moved, not by the newest entry",
    "read moved, not by the oldest entry",
    "read moved, by an entry from before its first block",
    "read moved, by an entry that goes past its last block",
    "read moved, by an entry of more than three blocks",
    "read moved, only lengthened",
    "read moved, only lengthened, its last byte past the end",
    "read moved, covered and lengthened",
    "read moved into a next log block",
    "read moved, run, zeroing or retries not 0",
    "read of 129 words",
    "read of one byte",
    "read over one block",
    "read over two blocks",
    "read over three blocks",
    "read up to byte 131,072",
    "read wholly past the end",
    "read ended, lengthened but its range inside",
    "read ended, lengthened from its end on",
    "read ended, other blocks covered",
    "read ended past the end, other blocks covered",
    "read ended in a next log block",
    "read ended, run, zeroing or retries not 0",
    "read ended, what was copied is there no more",
    "11 by a read's position, one too high",
    "11 by a read's position",
    "11 by a read's offset",
    "11 by a read's text length",
    "15 for a read while reading",
    "15 for a read while writing",
    "15 for a write while reading",
    "left while reading",
    "left while reading, a taken block for its run",
    "left while reading, a taken block for its zeroing",
    "18 in a read's final step, by an entry",
    "18 in a read's final step, by a next index",
    "read at once while reading",
    "shown while reading",
    "located while reading",
    "viewed while reading",
    "report changed by joining",
    "report changed by a write's beginning",
    "report changed by a read's beginning",
    "report changed by a write's Moved",
    "report changed by a read's Moved",
    "report changed by a read's bytes",
    "report changed by the link",
    "report changed by leaving",
    "report for another number by a write's beginning",
    "report for another number by a read's beginning",
    "report for another number by a write's Moved",
    "report for another number by a read's Moved",
    "report for another number by a read's bytes",
    "report for another number by the link",
    "report for another number by leaving",
    "report of another block stays at a stored word",
    "report of another block stays at a copied word",
    "report of another block stays at a commit",
    "report of another block stays at extending",
    "report of another block stays at a lost link",
    "report of another block stays at 19",
    "report of another block stays at 20 for extending",
    "report of another block stays at 20 at the link",
    "report of another block stays at 21",
    "report of another block stays at a call at once",
    "let through, a joined point's report 0",
    "let through, an unjoined point's report not 0",
    "let through, a report of the last block",
    "let through, chain length 64",
    "10 by a report of the block count",
    "10 by a report above the block count",
    "10 by a report with a lawful low part",
    "10 by a joined point's report",
    "10 by an unjoined point's report",
    "10 by point 0's report",
    "10 by point 31's report",
    "10 by a chain length of 0",
    "10 by a chain length of 65",
    "10 by a greater chain length",
    "20 for extending, a shorter chain",
    "20 for extending, a chain of 64",
    "20 for extending, the run free after it",
    "20 for extending, no block free",
    "20 at the link",
    "20 at the link, a shorter chain",
    "20 at the link, the zeroed block free after it",
    "20 at the link, the run free after it",
    "lost link, chain length 64",
    "extending, chain length 63",
    "linked, chain length 63",
    "linked a 65th log block",
    "caught up, a log block entered",
    "caught up, 64 log blocks entered",
    "caught up, more than 64 log blocks entered",
    "caught up, as many entered as can be",
    "served one point",
    "served 32 points",
    "served, some refused and some committed",
    "served, 18 at a beginning beside a write begun",
    "served, 19 beside a write begun",
    "served, a write under way kept",
    "served, a read under way kept",
    "served, 18 at a step",
    "served, 18 at a step, gone by the end",
    "served, linked and a link lost",
    "served, a block filled again",
    "served, committed in the last round",
    "served, unfinished beside a committed one",
    "served, reported for another number",
    "26 of no points",
    "26 of 33 points",
    "26 for another count of writes",
    "26 with a point listed twice",
    "26 with an unfit shared record",
    "27 with an unfit shared record",
    "27 of points that are no neighbours",
    "27 of two places",
    "27 above 31",
];

/// The names of those that happened.
pub fn happened(named: &[(bool, &'static str)]) -> Vec<&'static str> {
    named.iter().filter(|(happened, _)| *happened).map(|&(_, name)| name).collect()
}

impl Tally {
    pub fn count(&mut self, call: &str, answer: &str) {
        self.count_times(call, answer, 1);
    }

    pub fn count_times(&mut self, call: &str, answer: &str, times: u64) {
        // Most pairs are there already: no string is made for those.
        match self.counts.get_mut(call).and_then(|answers| answers.get_mut(answer)) {
            Some(count) => *count += times,
            None => {
                let answers = self.counts.entry(call.to_string()).or_default();
                answers.insert(answer.to_string(), times);
            }
        }
    }

    pub fn refused(&mut self, call: &str, number: u64) {
        self.count(call, &format!("refused {number}"));
    }

    pub fn event(&mut self, event: &str) {
        self.count("event", event);
    }

    pub fn events(&mut self, events: &[&str]) {
        for event in events {
            self.event(event);
        }
    }

    pub fn of(&self, call: &str, answer: &str) -> u64 {
        self.counts.get(call).and_then(|answers| answers.get(answer)).copied().unwrap_or(0)
    }

    /// All counts of a call.
    pub fn total(&self, call: &str) -> u64 {
        self.counts.get(call).map_or(0, |answers| answers.values().sum())
    }

    pub fn add(&mut self, other: &Tally) {
        for (call, answers) in &other.counts {
            for (answer, &times) in answers {
                self.count_times(call, answer, times);
            }
        }
    }

    /// The table's pairs of call and answer.
    pub fn table() -> Vec<(String, String)> {
        let mut pairs = Vec::new();
        for (call, answers, refusals) in TABLE {
            pairs.extend(answers.iter().map(|a| (call.to_string(), a.to_string())));
            pairs.extend(refusals.iter().map(|r| (call.to_string(), format!("refused {r}"))));
        }
        pairs
    }

    /// One line a call: each answer and refusal with its count.
    pub fn lines(&self) -> Vec<String> {
        let mut lines = Vec::new();
        for (call, answers, refusals) in TABLE {
            let mut line = format!("{call}:");
            for answer in answers {
                line.push_str(&format!(" {answer} {},", self.of(call, answer)));
            }
            let numbers: Vec<String> = refusals
                .iter()
                .map(|r| format!("{r} {}", self.of(call, &format!("refused {r}"))))
                .collect();
            lines.push(format!("{line} refused: {}", numbers.join(", ")));
        }
        for event in EVENTS {
            lines.push(format!("event: {event} {}", self.of("event", event)));
        }
        lines
    }

    /// Pairs of the table, commands and events that never came up.
    pub fn missing(&self) -> Vec<String> {
        let mut missing: Vec<String> = Tally::table()
            .into_iter()
            .filter(|(call, answer)| self.of(call, answer) == 0)
            .map(|(call, answer)| format!("{call}: {answer}"))
            .collect();
        missing.extend(
            EVENTS
                .iter()
                .filter(|event| self.of("event", event) == 0)
                .map(|event| format!("event: {event}")),
        );
        missing.extend(
            crate::bench::COMMANDS
                .iter()
                .filter(|command| self.of("command", command) == 0)
                .map(|command| format!("command: {command}")),
        );
        missing
    }
}
