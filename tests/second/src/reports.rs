//! What the reports, the chain length and the limit of a catch-up meet: the
//! situations in which wrong programs of K4 differ. The bench holds the shared record
//! that was handed in while these count.

use crate::bench::Bench;
use crate::image::*;
use crate::log::{catch_up, Caught};
use crate::map::find;
use crate::record::*;
use crate::refusal::Refusal;
use crate::step::Answer;
use crate::tally::happened;

impl Bench {
    /// A call that sets the report of its record's number, by place P's record.
    pub fn count_report(&mut self, by: &str, p: usize, number: usize, after: &Shared) {
        let (old, new) = (self.shared.reports[number], after.reports[number]);
        let place_differs = old != new || self.shared.reports[p] != new;
        if old != new {
            self.tally.event(&format!("report changed by {by}"));
        }
        if number != p && place_differs {
            self.tally.event(&format!("report for another number by {by}"));
        }
        self.tally.events(&let_through_events(&self.shared));
    }

    /// A call that sets no report, by a point that stands in that block.
    pub fn count_kept(&mut self, at: &str, number: usize, block: usize) {
        if self.shared.reports[number] != block {
            self.tally.event(&format!("report of another block stays at {at}"));
        }
    }

    /// A call that catches up privately.
    pub fn count_private(&mut self, p: usize, at: &str) {
        let Record { number, view, .. } = &self.records[p];
        if let Ok(caught) = catch_up(&self.image, view) {
            self.count_kept(at, *number, caught.view.block);
        }
    }

    /// A step of place P's record, but for one refused otherwise than by 20 and 21.
    pub fn count_standing(&mut self, p: usize, answer: &Answer, before: &Record, after: &Shared) {
        let Record { number, view, write } = before;
        let (number, block) = (*number, view.block);
        let is_linking = write.phase == Phase::Zeroing && write.position == BLOCK_WORDS;
        match answer {
            Answer::Moved if is_linking => {
                self.count_kept("a lost link", number, block);
                self.count_if(self.shared.is_chain_full(), "lost link, chain length 64");
            }
            Answer::Moved if write.phase == Phase::Reading => {
                self.count_report("a read's Moved", p, number, after);
            }
            Answer::Moved => self.count_report("a write's Moved", p, number, after),
            Answer::Read(_) => self.count_report("a read's bytes", p, number, after),
            Answer::Stored if is_linking => {
                self.count_report("the link", p, number, after);
                self.count_if(self.shared.chain == 63, "linked, chain length 63");
                self.count_if(chain_length(&self.image) > 64, "linked a 65th log block");
            }
            Answer::Stored => self.count_kept("a stored word", number, block),
            Answer::Copied => self.count_kept("a copied word", number, block),
            Answer::Committed(_) => self.count_kept("a commit", number, block),
            Answer::Extending => {
                self.count_kept("extending", number, block);
                self.count_if(self.shared.chain == 63, "extending, chain length 63");
            }
            Answer::Refused(Refusal::LogFull) => self.count_full(before, after, is_linking),
            Answer::Refused(Refusal::NoLogBlock) => self.count_kept("21", number, block),
            Answer::Refused(_) => {}
        }
    }

    fn count_if(&mut self, happened: bool, event: &str) {
        if happened {
            self.tally.event(event);
        }
    }

    /// 20, at the link or where Extending would begin.
    fn count_full(&mut self, before: &Record, after: &Shared, is_linking: bool) {
        let Record { number, view, write } = before;
        let is_shorter = chain_length(&self.image) < 64;
        let is_freed = |block: usize| self.shared.is_taken(block) && !after.is_taken(block);
        let in_run = (write.run..write.run + write.span()).contains(&write.zeroing);
        let run_freed = is_freed(write.run);
        let zeroed_freed = is_linking && !in_run && is_freed(write.zeroing);
        let none_free = find(&self.shared, 1).is_none();
        self.tally.events(&happened(&[
            (is_linking, "20 at the link"),
            (is_linking && is_shorter, "20 at the link, a shorter chain"),
            (zeroed_freed, "20 at the link, the zeroed block free after it"),
            (is_linking && run_freed, "20 at the link, the run free after it"),
            (!is_linking && is_shorter, "20 for extending, a shorter chain"),
            (!is_linking && !is_shorter, "20 for extending, a chain of 64"),
            (!is_linking && run_freed, "20 for extending, the run free after it"),
            (!is_linking && none_free, "20 for extending, no block free"),
        ]));
        let at = if is_linking { "20 at the link" } else { "20 for extending" };
        self.count_kept(at, *number, view.block);
    }
}

/// The log blocks that next indexes lead to from the superblock, at most 65.
fn chain_length(image: &[u64]) -> usize {
    let mut index = image[1];
    let mut length = 0;
    while index != 0 && index < block_count(image) as u64 && length <= MOST_LOG_BLOCKS {
        length += 1;
        index = word_of(image, index as usize, 0);
    }
    length
}

/// What a call lets through that no list of calls leads to.
fn let_through_events(shared: &Shared) -> Vec<&'static str> {
    let reports = || shared.reports.iter().copied().enumerate();
    let joined_at_0 = reports().any(|(p, block)| shared.has_joined(p) && block == 0);
    let unjoined = reports().any(|(p, block)| !shared.has_joined(p) && block != 0);
    happened(&[
        (joined_at_0, "let through, a joined point's report 0"),
        (unjoined, "let through, an unjoined point's report not 0"),
        (reports().any(|(_, b)| b + 1 == shared.blocks), "let through, a report of the last block"),
        (shared.chain == 64, "let through, chain length 64"),
    ])
}

/// By what the shared record gives 10 in an image of that many words, where one
/// reason alone does.
pub fn unfit_shared_events(shared: &Shared, words: usize) -> Vec<&'static str> {
    let true_reports = Shared { reports: [0; 32], ..shared.clone() };
    let true_chain = Shared { chain: 1, ..shared.clone() };
    if true_reports.is_fit(words) {
        too_high_events(shared)
    } else if true_chain.is_fit(words) {
        happened(&[
            (shared.chain == 0, "10 by a chain length of 0"),
            (shared.chain == 65, "10 by a chain length of 65"),
            (shared.chain > 65, "10 by a greater chain length"),
        ])
    } else {
        Vec::new()
    }
}

/// 10 by reports alone.
fn too_high_events(shared: &Shared) -> Vec<&'static str> {
    let is_high = |p: &usize| shared.reports[*p] >= shared.blocks;
    let high: Vec<usize> = (0..32).filter(is_high).collect();
    let all = |is_so: &dyn Fn(usize) -> bool| high.iter().all(|&p| is_so(p));
    let low_part = |p: usize| shared.reports[p] % 65_536;
    happened(&[
        (all(&|p| shared.reports[p] == shared.blocks), "10 by a report of the block count"),
        (all(&|p| shared.reports[p] > shared.blocks), "10 by a report above the block count"),
        (all(&|p| low_part(p) < shared.blocks), "10 by a report with a lawful low part"),
        (all(&|p| shared.has_joined(p)), "10 by a joined point's report"),
        (all(&|p| !shared.has_joined(p)), "10 by an unjoined point's report"),
        (high == [0], "10 by point 0's report"),
        (high == [31], "10 by point 31's report"),
    ])
}

/// What a catch-up for good meets.
pub fn caught_events(image: &[u64], view: &View) -> Vec<&'static str> {
    let Ok(Caught { entered, .. }) = catch_up(image, view) else { return Vec::new() };
    happened(&[
        (entered >= 1, "caught up, a log block entered"),
        (entered == 64, "caught up, 64 log blocks entered"),
        (entered > 64, "caught up, more than 64 log blocks entered"),
        (entered + 1 == block_count(image), "caught up, as many entered as can be"),
    ])
}
