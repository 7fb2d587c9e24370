//! Scenes of K4: reports and chain lengths changed by hand, and chains of log blocks
//! that are longer than 64 or run in a circle.

use crate::acts::*;
use crate::alterations::call_any;
use crate::forge::lawful_entry;
use crate::image::*;
use crate::maker::Maker;
use crate::readers::{begin_read_line, renew};
use crate::record::Phase;

/// Reports and chain lengths changed under the points, and circles.
pub fn standing(maker: &mut Maker, lines: usize) {
    open_standing(maker);
    for _ in 0..lines / 20 + 1 {
        if !maker.has_room() {
            return;
        }
        match maker.random.below(16) {
            0 | 1 => misreport(maker),
            2..=5 => extend_by_length(maker),
            6 | 7 => circle(maker),
            8 => round_trip(maker),
            9..=11 => as_another(maker),
            12 => works(maker, 4),
            13 => conflict(maker),
            14 => race_to_extend(maker),
            _ => read_with_reports(maker),
        }
        if a_pair(maker).is_none() || is_stuck(maker) || maker.random.once_in(12) {
            open_standing(maker);
        }
    }
}

/// An image with room, and points in it.
fn open_standing(maker: &mut Maker) {
    if maker.random.once_in(2) {
        open_nearly_full(maker);
    } else {
        let blocks = maker.random.between(8, 40);
        laid_out(maker, blocks);
    }
    for p in [0, 7, 19, 31] {
        maker.say(&format!("join {p}"));
    }
}

/// A point's report becomes another block, mostly one below the block count.
pub fn report_line(maker: &mut Maker) -> String {
    let i = match maker.random.below(4) {
        0 => maker.random.below(32),
        1 => *maker.random.pick(&[0, 31]),
        _ => a_point(maker),
    };
    let (blocks, border) = (maker.blocks(), a_border(maker));
    let random = &mut maker.random;
    let block = match random.below(16) {
        0 => blocks,
        1 => blocks + 1,
        2 => 65_536 + random.below(blocks),
        3 => border,
        4 | 5 => blocks - 1,
        6 | 7 => 0,
        _ => random.between(1, blocks - 1),
    };
    format!("report {i} {block}")
}

/// The chain length becomes one at a border, mostly one that is let through.
pub fn chain_line(maker: &mut Maker) -> String {
    let lengths = [0, 1, 2, 62, 63, 63, 63, 64, 64, 64, 64, 65, 66, 320, 65_599, 0xFFFF_FFFF];
    let any = maker.random.between(1, 64);
    let length = *maker.random.pick(&lengths);
    format!("altershared chain {}", if maker.random.once_in(4) { any } else { length })
}

/// The points' reports become other blocks of the image.
fn mix_reports(maker: &mut Maker, points: &[usize]) {
    for p in points {
        let block = maker.random.below(maker.blocks());
        maker.say(&format!("report {p} {block}"));
    }
}

/// The chain length as it was, and reports that are too high: 10 would go on for ever.
pub fn mend(maker: &mut Maker, chain: usize, reports: [usize; 32]) {
    let blocks = maker.bench.shared.blocks;
    for p in (0..32).filter(|&p| reports[p] < blocks) {
        if maker.bench.shared.reports[p] >= blocks {
            maker.say(&format!("report {p} {}", reports[p]));
        }
    }
    if maker.bench.shared.chain != chain {
        maker.say(&format!("altershared chain {chain}"));
    }
}

/// A report or the chain length altered, then calls.
fn misreport(maker: &mut Maker) {
    let (chain, reports) = (maker.bench.shared.chain, maker.bench.shared.reports);
    let line = if maker.random.once_in(4) { chain_line(maker) } else { report_line(maker) };
    maker.say(&line);
    for _ in 0..maker.random.between(1, 3) {
        if maker.random.once_in(4) {
            join_any(maker);
        } else {
            let p = a_point(maker);
            call_any(maker, p);
        }
        maker.say("shared");
    }
    mend(maker, chain, reports);
}

/// A point begins a write and fills its run; whether it could.
fn begin_filled(maker: &mut Maker, p: usize) -> bool {
    let (offset, length) = (an_offset(&mut maker.random) % 2_000, maker.random.between(1, 600));
    maker.say(&format!("begin {p} {offset} {length} {p}"));
    let near = maker.steps_to_commit(p);
    if maker.phase(p) == Phase::Filling {
        maker.say(&format!("step {p} {near}"));
    }
    maker.phase(p) == Phase::Filling
}

/// Puts the point at slot 64 of the chain's last block.
fn stand_at_end(maker: &mut Maker, p: usize) {
    let view = maker.bench.records[p].view.clone();
    if let Some(&last) = maker.chain_met().last().filter(|&&last| last != view.block) {
        maker.say(&format!("alter {p} block {last}"));
    }
    if view.slot != END_SLOT {
        maker.say(&format!("alter {p} slot 64"));
    }
}

/// A point wants a log block: 20 or Extending by the chain length; then the link, a
/// lost link or 20, by the next index and the chain length of then.
fn extend_by_length(maker: &mut Maker) {
    let Some((p, q)) = a_pair(maker) else { return };
    let (chain, reports) = (maker.bench.shared.chain, maker.bench.shared.reports);
    if !begin_filled(maker, p) {
        return;
    }
    stand_at_end(maker, p);
    if maker.random.once_in(2) {
        mix_reports(maker, &[p, q]);
    }
    if maker.random.once_in(5) {
        maker.say(&format!("map 0 {}", u64::MAX));
    }
    if maker.random.once_in(2) {
        let line = chain_line(maker);
        maker.say(&line);
    }
    maker.say(&format!("step {p} 1"));
    maker.say("shared");
    if maker.phase(p) == Phase::Zeroing {
        end_zeroing(maker, p);
    }
    mend(maker, chain, reports);
    if maker.random.once_in(2) {
        maker.say(&format!("step {p} 400"));
    }
    renew(maker, p);
}

/// The 64 steps that zero a block, now and then one that the point was not given, and
/// the step after them.
fn end_zeroing(maker: &mut Maker, p: usize) {
    maker.say(&format!("step {p} 64"));
    let place = place_of(maker.bench.records[p].view.block, 0);
    let old = maker.bench.image[place];
    if maker.random.once_in(4) {
        let block = maker.random.between(1, maker.blocks() - 1);
        maker.say(&format!("alter {p} zeroing {block}"));
    }
    if maker.random.once_in(3) {
        let next = *maker.random.pick(&[1, 2, 65_535, u64::MAX]);
        maker.say(&format!("set {place} {next}"));
    }
    if !maker.random.once_in(4) {
        let line = chain_line(maker);
        maker.say(&line);
    }
    maker.say(&format!("step {p} 1"));
    maker.say("shared");
    maker.say("free");
    maker.say(&format!("record {p}"));
    if maker.bench.image[place] >= maker.blocks() as u64 {
        maker.say(&format!("set {place} {old}"));
    }
}

/// A record is handed in with the number of another point that is joined, now and then
/// of one that is not.
fn as_another(maker: &mut Maker) {
    let Some((p, q)) = a_pair(maker) else { return };
    let number = if maker.random.once_in(8) { maker.random.below(40) } else { q };
    if maker.random.once_in(2) {
        maker.say(&format!("alter {p} number {number}"));
        mix_reports(maker, &[p, q]);
    }
    if maker.random.once_in(3) {
        let line = begin_read_line(maker, p);
        maker.say(&line);
    } else {
        begin_filled(maker, p);
    }
    maker.say("shared");
    maker.say(&format!("alter {p} number {number}"));
    before_its_end(maker, p, q);
    for k in [maker.steps_to_commit(p) + 1, maker.random.between(1, 300)] {
        mix_reports(maker, &[p, q]);
        maker.say(&format!("step {p} {k}"));
        maker.say("shared");
    }
    if maker.random.once_in(2) {
        mix_reports(maker, &[p, q]);
        maker.say(&format!("leave {p}"));
        maker.say("shared");
        maker.say(&format!("join {}", number.min(31)));
    }
    maker.say(&format!("alter {p} number {p}"));
    renew(maker, p);
}

/// Another's commit, or nothing; or the point stands where it must link.
fn before_its_end(maker: &mut Maker, p: usize, q: usize) {
    match maker.random.below(4) {
        0 => {
            let offset = maker.bench.records[p].write.offset;
            maker.say(&format!("begin {q} {offset} 9 {p}"));
            maker.say(&format!("step {q} 400"));
        }
        1 if maker.phase(p) == Phase::Filling => {
            stand_at_end(maker, p);
            maker.say(&format!("step {p} 65"));
        }
        _ => {}
    }
}

/// A point reads in steps, and its report is another block before each of them.
fn read_with_reports(maker: &mut Maker) {
    let Some((p, q)) = a_pair(maker) else { return };
    mix_reports(maker, &[p]);
    let line = begin_read_line(maker, p);
    maker.say(&line);
    maker.say("shared");
    let near = maker.steps_to_commit(p);
    mix_reports(maker, &[p]);
    maker.say(&format!("step {p} {}", near.max(1)));
    maker.say("shared");
    if maker.random.once_in(2) {
        let offset = maker.bench.records[p].write.offset.min(FILE_BYTES - 1);
        maker.say(&format!("begin {q} {offset} 1 5"));
        maker.say(&format!("step {q} 400"));
    }
    maker.say(&format!("step {p} 1"));
    maker.say("shared");
    for line in [format!("read {p} 0 9"), format!("show {p} 0 9"), format!("locate {p} 0")] {
        mix_reports(maker, &[p]);
        maker.say(&line);
    }
    maker.say("shared");
}

/// Puts entries into the empty slots of a log block.
fn fill_up(maker: &mut Maker, block: usize) {
    for place in place_of(block, FIRST_SLOT)..place_of(block, END_SLOT) {
        if maker.bench.image[place] == 0 {
            put_entry(maker, place);
        }
    }
}

/// Makes any block a full log block.
fn make_full(maker: &mut Maker, block: usize) {
    for place in place_of(block, FIRST_SLOT)..place_of(block, END_SLOT) {
        put_entry(maker, place);
    }
}

fn put_entry(maker: &mut Maker, place: usize) {
    let blocks = maker.blocks();
    let word = lawful_entry(&mut maker.random, blocks);
    maker.say(&format!("set {place} {word}"));
}

/// A full log block leads back to one before it or to itself, under points that write
/// and read. Then it is mended.
fn circle(maker: &mut Maker) {
    let Some((p, q)) = a_pair(maker) else { return };
    let chain = maker.chain_met();
    if chain.is_empty() || chain.len() > 8 {
        return;
    }
    if maker.random.once_in(2) {
        begin_filled(maker, p);
    } else {
        let line = begin_read_line(maker, p);
        maker.say(&line);
        let near = maker.steps_to_commit(p).max(1);
        maker.say(&format!("step {p} {near}"));
    }
    let last = maker.random.below(chain.len());
    let first = maker.random.between(0, last);
    for &block in &chain[first..=last] {
        fill_up(maker, block);
    }
    let place = place_of(chain[last], 0);
    let old = maker.bench.image[place];
    maker.say(&format!("set {place} {}", chain[first]));
    go_round(maker, &[p, q], &chain[first..=last]);
    maker.say(&format!("set {place} {old}"));
    maker.say(&format!("step {p} 400"));
    renew(maker, p);
    renew(maker, q);
}

/// Points that stand in the circle, and a new one, want to catch up.
fn go_round(maker: &mut Maker, points: &[usize], blocks: &[usize]) {
    for &p in points {
        let block = *maker.random.pick(blocks);
        let any = maker.random.between(2, 64);
        let slot = *maker.random.pick(&[64, 64, 2, any]);
        maker.say(&format!("alter {p} block {block}"));
        maker.say(&format!("alter {p} slot {slot}"));
        maker.say(&format!("step {p} 1"));
        want_to_catch_up(maker, p);
        maker.say(&format!("record {p}"));
    }
    let new = maker.random.below(32);
    maker.say(&format!("join {new}"));
    want_to_catch_up(maker, new);
    maker.say("shared");
}

/// Calls that catch up, for good or privately.
fn want_to_catch_up(maker: &mut Maker, p: usize) {
    for _ in 0..maker.random.between(1, 3) {
        let line = match maker.random.below(7) {
            0 => format!("read {p} 0 64"),
            1 => format!("show {p} 500 20"),
            2 => format!("locate {p} 0"),
            3 => format!("view {p} 0"),
            4 | 5 => format!("begin {p} 5 9 1"),
            _ => begin_read_line(maker, p),
        };
        maker.say(&line);
    }
}

/// All blocks of a small image in a ring, all but the first full: from the first
/// one's slot 64 a point comes back to it, and no catch-up enters more blocks. With the
/// first one full too it never ends.
fn round_trip(maker: &mut Maker) {
    let blocks = maker.random.between(4, 6);
    laid_out(maker, blocks);
    maker.say("join 0");
    maker.say("join 31");
    let mut ring: Vec<usize> = (1..blocks).collect();
    if maker.random.once_in(2) {
        ring[1..].reverse();
    }
    for (i, &block) in ring.iter().enumerate() {
        let next = ring[(i + 1) % ring.len()];
        maker.say(&format!("set {} {next}", place_of(block, 0)));
        if block != 1 {
            make_full(maker, block);
        }
    }
    if maker.random.once_in(4) {
        fill_up(maker, 1);
    }
    for p in [0, 31] {
        maker.say(&format!("alter {p} slot 64"));
        want_to_catch_up(maker, p);
        maker.say("shared");
        maker.say(&format!("record {p}"));
    }
    maker.say("step 0 70");
    maker.say("step 31 70");
    maker.say("shared");
}

/// One to three full log blocks after the 64th, then an empty one: a new point enters
/// more than 64.
pub fn lengthen(maker: &mut Maker) {
    let Some(mut last) = maker.last_of_64() else { return };
    let shared = maker.bench.shared.clone();
    let free: Vec<usize> = (1..maker.blocks()).filter(|&b| !shared.is_taken(b)).collect();
    fill_up(maker, last);
    for &block in free.iter().rev().take(maker.random.between(2, 4)) {
        if !maker.has_room() {
            return;
        }
        maker.say(&format!("noise {} 64 {block}", place_of(block, 0)));
        maker.say(&format!("set {} 0", place_of(block, 0)));
        maker.say(&format!("set {} 0", place_of(block, FIRST_SLOT)));
        maker.say(&format!("set {} {block}", place_of(last, 0)));
        enter(maker);
        make_full(maker, block);
        last = block;
    }
    enter(maker);
}

/// A new point catches up from the first log block.
fn enter(maker: &mut Maker) {
    let new = maker.random.below(32);
    maker.say(&format!("leave {new}"));
    maker.say(&format!("join {new}"));
    want_to_catch_up(maker, new);
    maker.say("shared");
    maker.say(&format!("step {new} 400"));
}
