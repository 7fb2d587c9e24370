//! Scenes of points that read in steps while others write.

use crate::acts::*;
use crate::forge::broken_entry;
use crate::image::*;
use crate::maker::Maker;
use crate::random::Random;
use crate::record::{Phase, Record, Write};

/// A range's length, rarely one that is turned down.
pub fn a_read_length(random: &mut Random) -> usize {
    match random.below(12) {
        0 => *random.pick(&[0, 1_025, 1_100]),
        1 | 2 => 1_024,
        3 | 4 => 1,
        5 => random.between(1_017, 1_024),
        6 | 7 => random.between(500, 530),
        8 | 9 => random.between(1, 1_024),
        _ => random.between(1, 40),
    }
}

/// A range: anywhere, at or over the end of a file of that length, or one that
/// touches 129 words.
fn a_range(random: &mut Random, length: usize) -> (usize, usize) {
    let count = a_read_length(random);
    match random.below(8) {
        0 | 1 => (length.saturating_sub(count), count),
        2 => ((length + 1).saturating_sub(count), count),
        3 => (length.saturating_sub(random.below(600)), count),
        4 => (length + random.below(600), count),
        5 => (512 * random.below(3) + *random.pick(&[1, 7, 505, 511]), 1_024),
        _ => (an_offset(random), count),
    }
}

/// The file's length, as far as a joined point knows it.
fn known_length(maker: &Maker) -> usize {
    let known = maker.joined().into_iter().map(|p| maker.bench.records[p].view.length);
    known.filter(|&length| length <= FILE_BYTES).max().unwrap_or(0)
}

/// The line that begins a read of a random range.
pub fn begin_read_line(maker: &mut Maker, p: usize) -> String {
    let length = known_length(maker);
    let (offset, count) = a_range(&mut maker.random, length);
    format!("beginread {p} {offset} {count}")
}

pub fn begin_read_any(maker: &mut Maker) {
    let p = a_beginner(maker);
    let line = begin_read_line(maker, p);
    maker.say(&line);
}

/// A joined point with a read just begun, now and then over write fields that
/// are not 0, and another joined idle point.
fn a_reader(maker: &mut Maker) -> Option<(usize, usize)> {
    let (p, q) = a_pair(maker)?;
    if maker.random.once_in(8) {
        let field = *maker.random.pick(&["run", "zeroing", "retries", "position"]);
        let value = maker.random.between(1, 200);
        maker.say(&format!("alter {p} {field} {value}"));
        maker.say(&format!("text {p} 1023 {value}"));
    }
    let line = begin_read_line(maker, p);
    maker.say(&line);
    (maker.phase(p) == Phase::Reading).then_some((p, q))
}

/// A write by another point: over a block of the range, beside it, past the
/// file's end, or both. The reader's record fits.
fn a_rival(random: &mut Random, reader: &Record) -> (usize, usize) {
    let (first, span) = (reader.write.first_block(), reader.write.span());
    let length = reader.view.length;
    let last = first + span - 1;
    let behind = (last + 1).max(length.div_ceil(BLOCK_BYTES));
    let below = random.below((length / BLOCK_BYTES).max(1));
    let v = match random.below(12) {
        0 => first,
        1 | 2 => first + span / 2,
        3 => last,
        4 => last + 1,
        5 => first.saturating_sub(1),
        6 => below,
        7 => return (length, random.between(1, 600)),
        8 => return (an_offset(random) % 100_000, random.between(1, 1_024)),
        // From the block before the range into its first, from its last into the next.
        9 => return ((BLOCK_BYTES * first).saturating_sub(1), 2),
        10 => return (BLOCK_BYTES * (last + 1) - 1, 2),
        _ => behind,
    };
    let start = random.below(BLOCK_BYTES);
    let offset = BLOCK_BYTES * v + start;
    let count = match random.below(8) {
        0 => 1_024,
        _ => random.between(1, BLOCK_BYTES - start),
    };
    (offset, count)
}

/// Another point's whole write.
fn commit_of(maker: &mut Maker, q: usize, (offset, count): (usize, usize)) {
    let seed = maker.random.below(256);
    maker.say(&format!("begin {q} {offset} {count} {seed}"));
    if maker.random.once_in(10) {
        let line = begin_read_line(maker, q);
        maker.say(&line);
    }
    maker.say(&format!("step {q} 400"));
}

/// Some of the steps to a read's final step.
fn some_steps(maker: &mut Maker, p: usize) {
    let near = maker.steps_to_commit(p);
    let k = match maker.random.below(4) {
        0 => maker.random.between(1, near.max(1)),
        1 => maker.random.between(1, 5).min(near),
        2 => near,
        _ => 0,
    };
    if k > 0 {
        maker.say(&format!("step {p} {k}"));
    }
}

/// What else a point with a read under way can be asked for.
fn meanwhile(maker: &mut Maker, p: usize) {
    let offset = maker.bench.records[p].write.offset;
    let v = offset / BLOCK_BYTES;
    let line = match maker.random.below(8) {
        0 => format!("read {p} {offset} 1024"),
        1 => format!("show {p} {offset} 20"),
        2 => format!("locate {p} {v}"),
        3 => format!("view {p} {v}"),
        4 => format!("begin {p} {offset} 9 1"),
        5 => begin_read_line(maker, p),
        _ => format!("record {p}"),
    };
    maker.say(&line);
}

/// A point reads while another commits up to three writes; then the reader
/// goes on.
pub fn watch(maker: &mut Maker) {
    let Some((p, q)) = a_reader(maker) else { return };
    let begun = maker.bench.records[p].clone();
    some_steps(maker, p);
    for _ in 0..*maker.random.pick(&[0, 1, 1, 1, 2, 2, 3]) {
        let rival = a_rival(&mut maker.random, &begun);
        commit_of(maker, q, rival);
        if maker.random.once_in(3) {
            some_steps(maker, p);
            maker.say(&format!("record {p}"));
        }
    }
    if maker.random.once_in(3) {
        meanwhile(maker, p);
    }
    go_on(maker, p);
}

/// The reader's final step, sometimes one by one, and what follows.
fn go_on(maker: &mut Maker, p: usize) {
    let near = maker.steps_to_commit(p);
    if maker.random.once_in(3) {
        maker.say(&format!("step {p} {}", near + 1));
        maker.say(&format!("record {p}"));
    }
    if maker.phase(p) == Phase::Reading {
        maker.say(&format!("step {p} 300"));
        maker.say(&format!("record {p}"));
    }
}

/// The log breaks under a reader at its final step, and under a point that
/// begins a read, and is mended.
pub fn break_under(maker: &mut Maker) {
    let Some((p, q)) = a_reader(maker) else { return };
    let near = maker.steps_to_commit(p);
    maker.say(&format!("step {p} {near}"));
    let (place, bad) = a_break(maker, p);
    let old = maker.bench.image[place];
    maker.say(&format!("set {place} {bad}"));
    maker.say(&format!("step {p} 2"));
    maker.say(&format!("record {p}"));
    let line = begin_read_line(maker, q);
    maker.say(&line);
    maker.say(&format!("set {place} {old}"));
    if maker.phase(p) == Phase::Reading {
        go_on(maker, p);
    }
    renew(maker, p);
}

/// The point leaves and joins: its record is altered no more.
pub fn renew(maker: &mut Maker, p: usize) {
    maker.say(&format!("leave {p}"));
    maker.say("shared");
    maker.say(&format!("join {p}"));
}

/// A word that the reader's final step meets first, and what it shall be: an
/// entry that breaks the rules or covers many blocks, or a next index, too large or
/// not.
fn a_break(maker: &mut Maker, p: usize) -> (usize, u64) {
    let blocks = maker.blocks();
    let kind = maker.random.below(4);
    if kind >= 2 {
        maker.say(&format!("alter {p} slot 64"));
    }
    let Record { view, write, .. } = maker.bench.records[p].clone();
    let random = &mut maker.random;
    let bad = match kind {
        0 => broken_entry(random, 0x0000_0201_0001_0000, blocks),
        1 => long_entry(random, write.first_block(), blocks),
        2 => (blocks + random.below(2)) as u64,
        _ => random.between(1, blocks - 1) as u64,
    };
    let word = if view.slot < END_SLOT { view.slot } else { 0 };
    (place_of(view.block, word), bad)
}

/// A lawful entry of many blocks about a virtual block.
fn long_entry(random: &mut Random, v: usize, blocks: usize) -> u64 {
    let n = random.between(4, 64).min(blocks - 1);
    let v = v.saturating_sub(random.below(n + 2)).min(FILE_BLOCKS - n);
    let b = random.between(1, blocks - n);
    Entry { v, b, n, u: random.between(1, BLOCK_BYTES), point: 5, rest: 0 }.pack()
}

/// Bytes past the file's end that are not 0, or a record that takes the file
/// for shorter than it is; or a word of the range changes after its copy. Bytes
/// of the text before their copy, and another's commit, now and then.
pub fn dirty(maker: &mut Maker) {
    let Some((p, q)) = a_reader(maker) else { return };
    let record = maker.bench.records[p].clone();
    let at = |place: usize| match usize::from(record.view.table[place / BLOCK_BYTES]) {
        0 => None,
        block => Some(place_of(block, place % BLOCK_BYTES / 8)),
    };
    let (offset, end) = (record.write.offset, record.write.end());
    let place = maker.random.between(offset, end - 1);
    if maker.random.once_in(2) {
        let length = maker.random.between(offset.saturating_sub(9), end);
        maker.say(&format!("alter {p} length {length}"));
    }
    if maker.random.once_in(3) {
        let byte = maker.random.between(1, 255);
        maker.say(&format!("text {p} {} {byte}", place - offset));
    }
    if maker.random.once_in(3) {
        let rival = a_rival(&mut maker.random, &record);
        commit_of(maker, q, rival);
        some_steps(maker, p);
        maker.say(&format!("record {p}"));
    }
    let near = maker.random.below(maker.steps_to_commit(p) + 1);
    maker.say(&format!("step {p} {}", near.max(1)));
    if let Some(word) = at(place).filter(|_| maker.random.once_in(2)) {
        let old = maker.bench.image[word];
        let any = maker.random.any();
        maker.say(&format!("set {word} {any}"));
        go_on(maker, p);
        maker.say(&format!("set {word} {old}"));
    }
    if maker.phase(p) == Phase::Reading {
        go_on(maker, p);
    }
    renew(maker, p);
}

/// A reader leaves, now and then with a block in a field that no read uses.
pub fn leave_reading(maker: &mut Maker) {
    let Some((p, _)) = a_reader(maker) else { return };
    some_steps(maker, p);
    let blocks = maker.blocks();
    for field in ["run", "zeroing"] {
        if maker.random.once_in(2) {
            let block = maker.random.below(blocks + 1);
            maker.say(&format!("alter {p} {field} {block}"));
        }
    }
    renew(maker, p);
}

/// An alteration of what the point has seen of the log, mostly one that fits.
fn view_line(maker: &mut Maker, p: usize, length: usize) -> String {
    let blocks = maker.blocks();
    let random = &mut maker.random;
    let near = random.between(length.saturating_sub(600), length + 600);
    match random.below(5) {
        0 => format!("alter {p} slot {}", random.between(2, 64)),
        1 => format!("alter {p} block {}", random.between(1, blocks)),
        2 => format!("table {p} {} {}", random.below(4), random.below(blocks + 1)),
        _ => format!("alter {p} length {near}"),
    }
}

/// Makes the record one with a read of some size, most of it copied.
pub fn read_scene(maker: &mut Maker, p: usize) -> String {
    let length = known_length(maker);
    let (offset, count) = a_range(&mut maker.random, length);
    maker.say(&format!("alter {p} phase 6"));
    maker.say(&format!("alter {p} offset {offset}"));
    maker.say(&format!("alter {p} textlength {count}"));
    for field in ["run", "zeroing", "retries"] {
        if maker.random.once_in(3) {
            let value = a_border(maker);
            maker.say(&format!("alter {p} {field} {value}"));
        }
    }
    if maker.random.once_in(3) {
        let line = view_line(maker, p, length);
        maker.say(&line);
    }
    if maker.random.once_in(3) {
        let (i, byte) = (maker.random.below(count.clamp(1, 1_024)), maker.random.below(256));
        maker.say(&format!("text {p} {i} {byte}"));
    }
    let range = Write { offset, text_length: count.max(1), ..Write::idle() };
    let words = range.range_words();
    let any = maker.random.below(words + 1);
    format!("alter {p} position {}", maker.random.pick(&[any, words - 1, words, words, words + 1]))
}

/// A reader's record altered, then its steps, with a commit between or not.
pub fn altered_read(maker: &mut Maker) {
    let Some((p, q)) = a_pair(maker) else { return };
    let line = read_scene(maker, p);
    maker.say(&line);
    let record = maker.bench.records[p].clone();
    if maker.random.once_in(2) && record.fits(maker.blocks()) {
        let rival = a_rival(&mut maker.random, &record);
        commit_of(maker, q, rival);
    }
    let k = *maker.random.pick(&[1, 1, 2, 3, 130, 300]);
    maker.say(&format!("step {p} {k}"));
    maker.say(&format!("record {p}"));
    renew(maker, p);
}
