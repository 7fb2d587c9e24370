//! What a call of K6 meets: the situations in which wrong programs of it differ.

use crate::bench::Bench;
use crate::record::*;
use crate::refusal::Refusal;
use crate::serve::{most_rounds, Turn, MOST_POINTS};
use crate::step::{settle, Answer};
use crate::tally::happened;

/// What the turns of one call have met so far.
#[derive(Default)]
pub struct Seen {
    /// How many steps each point was given.
    steps: Vec<usize>,
    begun: bool,
    kept_write: bool,
    kept_read: bool,
    linked: bool,
    link_lost: bool,
    refilled: bool,
}

impl Seen {
    pub fn new(count: usize) -> Seen {
        Seen { steps: vec![0; count], ..Seen::default() }
    }

    /// Looks at a turn, at the record before and after it and at its answer.
    pub fn turn(&mut self, turn: Turn, before: &Record, after: &Record, answer: Option<&Answer>) {
        match turn {
            Turn::Begin(_) => self.begin(before, answer),
            Turn::Step(i) => {
                self.steps[i] += 1;
                self.step(before, after, answer);
            }
        }
    }

    fn begin(&mut self, before: &Record, answer: Option<&Answer>) {
        self.begun |= answer.is_none();
        if answer == Some(&Answer::Refused(Refusal::WrongMoment)) {
            self.kept_write |= before.write.holds_run();
            self.kept_read |= before.write.phase == Phase::Reading;
        }
    }

    fn step(&mut self, before: &Record, after: &Record, answer: Option<&Answer>) {
        let was_zeroing = before.write.phase == Phase::Zeroing;
        let ends_zeroing = was_zeroing && after.write.phase == Phase::Filling;
        self.linked |= ends_zeroing && answer == Some(&Answer::Stored);
        self.link_lost |= ends_zeroing && answer == Some(&Answer::Moved);
        let refills = [Phase::RefillingFirst, Phase::RefillingLast, Phase::RefillingBoth];
        self.refilled |= refills.contains(&before.write.phase) && answer == Some(&Answer::Stored);
    }
}

impl Bench {
    /// A call that is refused by 26 or 27, while everything is as handed in.
    pub fn count_unserved(&mut self, places: &[usize], numbers: &[usize], writes: usize) {
        let count = numbers.len();
        let is_26 = count == 0 || count > MOST_POINTS || count != writes;
        let twice = |i: usize| (0..i).find(|&j| numbers[j] == numbers[i]);
        let pairs: Vec<(usize, usize)> =
            (0..count).filter_map(|i| twice(i).map(|j| (j, i))).collect();
        let all = |is_so: &dyn Fn(usize, usize) -> bool| {
            !is_26 && pairs.iter().all(|&(j, i)| is_so(j, i))
        };
        let is_unfit = !self.shared.is_fit(self.image.len());
        self.tally.events(&happened(&[
            (count == 0, "26 of no points"),
            (count == 33 && writes == 33, "26 of 33 points"),
            ((1..=MOST_POINTS).contains(&count) && is_26, "26 for another count of writes"),
            (is_26 && !pairs.is_empty(), "26 with a point listed twice"),
            (is_26 && is_unfit, "26 with an unfit shared record"),
            (!is_26 && is_unfit, "27 with an unfit shared record"),
            (all(&|j, i| i - j > 1), "27 of points that are no neighbours"),
            (all(&|j, i| places[j] != places[i]), "27 of two places"),
            (all(&|_, i| numbers[i] > 31), "27 above 31"),
        ]));
    }

    /// A call that is not refused, when its row is over.
    pub fn count_served(&mut self, places: &[usize], answers: &[Answer], seen: &Seen) {
        for answer in answers {
            match answer {
                Answer::Committed(0) => self.tally.count("serve", "committed at once"),
                Answer::Committed(_) => self.tally.count("serve", "committed after moved"),
                Answer::Refused(why) => self.tally.refused("serve", why.number()),
                Answer::Extending => self.tally.count("serve", "extending"),
                Answer::Moved => self.tally.count("serve", "moved"),
                _ => self.tally.count("serve", "stored"),
            }
        }
        self.tally.events(&happened(&[
            (places.len() == 1, "served one point"),
            (places.len() == MOST_POINTS, "served 32 points"),
        ]));
        self.tally.events(&seen.turns_events());
        self.tally.events(&answers_events(answers, seen));
        let events = self.records_events(places, answers, seen);
        self.tally.events(&events);
    }

    /// The events that the records after the call show.
    fn records_events(
        &self,
        places: &[usize],
        answers: &[Answer],
        seen: &Seen,
    ) -> Vec<&'static str> {
        let stepped = || (0..places.len()).filter(|&i| seen.steps[i] > 0);
        let record_of = |i: usize| &self.records[places[i]];
        let would_go_on = |i: usize| settle(&self.image, &self.shared, record_of(i)).is_ok();
        let mut broken = stepped().filter(|&i| answers[i] == BROKEN);
        let is_other = |i: usize| record_of(i).number != places[i];
        happened(&[
            (broken.any(would_go_on), "served, 18 at a step, gone by the end"),
            (stepped().any(is_other), "served, reported for another number"),
        ])
    }
}

const BROKEN: Answer = Answer::Refused(Refusal::LogBroken);

impl Seen {
    fn turns_events(&self) -> Vec<&'static str> {
        happened(&[
            (self.kept_write, "served, a write under way kept"),
            (self.kept_read, "served, a read under way kept"),
            (self.linked && self.link_lost, "served, linked and a link lost"),
            (self.refilled, "served, a block filled again"),
        ])
    }
}

/// The events that the answers show.
fn answers_events(answers: &[Answer], seen: &Seen) -> Vec<&'static str> {
    let is_refused = |answer: &Answer| matches!(answer, Answer::Refused(_));
    let is_committed = |answer: &Answer| matches!(answer, Answer::Committed(_));
    let refused = answers.iter().any(is_refused);
    let committed = answers.iter().any(is_committed);
    let unfinished = answers.iter().any(|answer| !is_refused(answer) && !is_committed(answer));
    let any = |is_so: &dyn Fn(&Answer, usize) -> bool| {
        answers.iter().zip(&seen.steps).any(|(answer, &steps)| is_so(answer, steps))
    };
    let begun_broken = any(&|answer, steps| *answer == BROKEN && steps == 0);
    let no_run = answers.contains(&Answer::Refused(Refusal::NoRun));
    let rounds = most_rounds(answers.len());
    let in_last_round = any(&|answer, steps| is_committed(answer) && steps == rounds);
    happened(&[
        (refused && committed, "served, some refused and some committed"),
        (seen.begun && begun_broken, "served, 18 at a beginning beside a write begun"),
        (seen.begun && no_run, "served, 19 beside a write begun"),
        (any(&|answer, steps| *answer == BROKEN && steps > 0), "served, 18 at a step"),
        (in_last_round, "served, committed in the last round"),
        (unfinished && committed, "served, unfinished beside a committed one"),
    ])
}
