//! Random scripts of several kinds.

use crate::acts::*;
use crate::alterations::*;
use crate::forge::*;
use crate::image::*;
use crate::maker::Maker;
use crate::maps::a_map;
use crate::random::Random;
use crate::readers::*;
use crate::servers::serving;
use crate::standing::*;

/// The kinds of scripts.
pub const KINDS: [&str; 14] = [
    "ordinary work",
    "nearly full log",
    "nearly full image",
    "full chains",
    "hostile image",
    "altered records",
    "malformed lines",
    "conflicts",
    "openings",
    "mixed",
    "stretches",
    "reads",
    "standing",
    "serving",
];

/// A script of a kind.
pub fn make(random: Random, kind: usize) -> Vec<u8> {
    let mut maker = Maker::new(random);
    let lines = maker.random.between(100, 900);
    match kind {
        0 => ordinary(&mut maker, lines),
        1 => nearly_full_log(&mut maker, lines),
        2 => nearly_full_image(&mut maker, lines),
        3 => full_chains(&mut maker, lines),
        4 => hostile(&mut maker, lines),
        5 => altered(&mut maker, lines),
        6 => return malformed(maker, lines),
        7 => conflicts(&mut maker),
        8 => openings(&mut maker),
        9 => mixed(&mut maker, lines),
        10 => stretches(&mut maker, lines),
        11 => reads(&mut maker, lines),
        12 => standing(&mut maker, lines),
        _ => serving(&mut maker, lines),
    }
    look_at_all(&mut maker);
    maker.script
}

/// Asks for everything that the bench holds.
fn look_at_all(maker: &mut Maker) {
    for p in 0..32 {
        if maker.bench.records[p] != crate::record::Record::zero() {
            maker.say(&format!("record {p}"));
            maker.say(&format!("read {p} 0 4096"));
        }
    }
    maker.say("shared");
    maker.say("free");
    maker.say("digest");
}

fn ordinary(maker: &mut Maker, lines: usize) {
    let blocks = match maker.random.below(8) {
        0 => 1_024,
        1 => maker.random.between(4, 1_024),
        _ => maker.random.between(8, 60),
    };
    laid_out(maker, blocks);
    works(maker, lines);
}

/// A log with a few slots left in its last block.
fn nearly_full_log(maker: &mut Maker, lines: usize) {
    open_nearly_full(maker);
    for _ in 0..lines / 40 + 1 {
        works(maker, 20);
        race_to_extend(maker);
        conflict(maker);
    }
}

fn nearly_full_image(maker: &mut Maker, lines: usize) {
    if maker.random.once_in(2) {
        let blocks = maker.random.between(4, 9);
        laid_out(maker, blocks);
    } else {
        let blocks = maker.random.between(5, 30);
        let plan = Plan {
            blocks,
            full: maker.random.below(2),
            more: Some(maker.random.between(55, 61)),
            spare: maker.random.between(0, 4),
            reach: *maker.random.pick(&[12, 256]),
            used: 400,
        };
        let forged = forge(&mut maker.random, plan);
        put(maker, &forged);
        maker.say("open 1024");
        join_some(maker);
        join_some(maker);
    }
    works(maker, lines);
}

/// Chains of 62, 63 and 64 full log blocks, worked on until they are full.
fn full_chains(maker: &mut Maker, lines: usize) {
    let full = *maker.random.pick(&[61, 62, 63, 63, 63, 64]);
    let blocks = match maker.random.below(3) {
        0 => full + maker.random.between(4, 12),
        1 => 1_024,
        _ => maker.random.between(90, 300),
    };
    let mut plan = plan_with(&mut maker.random, blocks, full);
    if full < 64 {
        plan.more = Some(maker.random.between(56, 61));
    }
    plan.spare = plan.spare.max(1);
    let forged = forge(&mut maker.random, plan);
    put(maker, &forged);
    maker.say("open 1024");
    join_some(maker);
    join_some(maker);
    for _ in 0..lines / 60 + 1 {
        race_to_extend(maker);
        conflict(maker);
        works(maker, 10);
    }
    past_64(maker);
}

/// The chain goes on after its 64th log block: by hand, by a chain length that says
/// less than there are, or back into the chain.
fn past_64(maker: &mut Maker) {
    let Some(block) = maker.last_of_64() else { return };
    match maker.random.below(3) {
        0 => lengthen(maker),
        1 => {
            let length = maker.random.between(1, 63);
            maker.say(&format!("altershared chain {length}"));
            for _ in 0..4 {
                race_to_extend(maker);
            }
        }
        _ => {
            let next = maker.random.between(1, maker.blocks() - 1);
            maker.say(&format!("set {} {next}", place_of(block, 0)));
        }
    }
    works(maker, 30);
    cut_and_open(maker);
}

/// Words of superblock, chain, entries, data and the last block's end change
/// under the points.
fn hostile(maker: &mut Maker, lines: usize) {
    let plan = any_plan(&mut maker.random, 60);
    let forged = forge(&mut maker.random, plan);
    put(maker, &forged);
    maker.say("open 1024");
    join_some(maker);
    for _ in 0..lines / 12 + 1 {
        works(maker, 8);
        harm(maker);
        let p = a_point(maker);
        let v = *maker.random.pick(&[0, 1, 2, 255, 256, 0xFFFF_FFFFu32]);
        let line = match maker.random.below(7) {
            0 => format!("read {p} 0 64"),
            1 => format!("show {p} 500 20"),
            2 => format!("locate {p} {v}"),
            3 => format!("view {p} {v}"),
            4 => format!("begin {p} 5 9 1"),
            5 => begin_read_line(maker, p),
            _ => format!("step {p} 200"),
        };
        maker.say(&line);
        if maker.random.once_in(5) {
            cut_and_open(maker);
        }
        if maker.bench.shared.blocks == 0 || maker.random.once_in(8) {
            put(maker, &forged);
            maker.say("open 1024");
            join_some(maker);
        }
    }
}

/// Changes one word or a stretch.
fn harm(maker: &mut Maker) {
    let words = maker.bench.image.len();
    let blocks = maker.blocks();
    let chain = maker.chain_met();
    let block = if chain.is_empty() { 1 } else { *maker.random.pick(&chain) };
    let slot = maker.random.between(0, 63);
    let place = place_of(block.min(blocks - 1), slot);
    let old = maker.bench.image.get(place).copied().unwrap_or(0);
    let line = match maker.random.below(12) {
        0 => {
            let first = maker.random.below(words);
            let count = maker.random.below((words - first).min(200) + 1);
            format!("noise {first} {count} {}", maker.random.any())
        }
        1 => format!("set 1 {}", maker.random.below(blocks + 2)),
        2 => format!("set 1 {}", maker.random.pick(&[0, blocks, blocks + 1])),
        3 => format!("set {} {}", place_of(block, 0), maker.random.below(blocks + 2)),
        4 => format!("set {} {}", place_of(block, 0), blocks + maker.random.below(2)),
        5 => format!("set {} {}", maker.random.below(64), maker.random.any()),
        6..=8 => format!("set {place} {}", broken_entry(&mut maker.random, old, blocks)),
        9 => format!("set {place} {}", lawful_entry(&mut maker.random, blocks)),
        10 => format!("set {place} 0"),
        _ => format!("set {} {}", maker.random.below(words), maker.random.below(3)),
    };
    maker.say(&line);
}

/// Two points, one block, every kind of edge.
fn conflicts(maker: &mut Maker) {
    let blocks = maker.random.between(20, 40);
    laid_out(maker, blocks);
    for p in [0, 5, 9, 31] {
        maker.say(&format!("join {p}"));
    }
    maker.say("begin 0 0 1024 17");
    maker.say("step 0 400");
    for _ in 0..maker.random.between(10, 50) {
        conflict(maker);
        if maker.random.once_in(6) {
            works(maker, 4);
        }
    }
}

/// Points that read while others write, on healthy and on altered ground.
fn reads(maker: &mut Maker, lines: usize) {
    open_for_reads(maker);
    for _ in 0..lines / 10 + 1 {
        if !maker.has_room() {
            return;
        }
        match maker.random.below(16) {
            0 => works(maker, 4),
            1 => break_under(maker),
            2 | 3 => dirty(maker),
            4 => leave_reading(maker),
            5 | 6 => altered_read(maker),
            7 => conflict(maker),
            _ => watch(maker),
        }
        if a_pair(maker).is_none() || is_stuck(maker) {
            open_for_reads(maker);
        }
    }
}

/// An image with a few writes in it and points that can read them.
fn open_for_reads(maker: &mut Maker) {
    if maker.random.once_in(3) {
        open_nearly_full(maker);
    } else {
        let blocks = maker.random.between(12, 60);
        laid_out(maker, blocks);
    }
    for p in [2, 7, 19, 30] {
        maker.say(&format!("join {p}"));
    }
    for _ in 0..maker.random.below(4) {
        begin_any(maker);
        step_any(maker);
    }
}

/// Damaged images, opened with scratches of several lengths.
fn openings(maker: &mut Maker) {
    for _ in 0..maker.random.between(4, 24) {
        if !maker.has_room() {
            return;
        }
        opening(maker);
    }
    for words in [0, 63, 64, 128, 192, 255, 256, 257, 65_536, 65_537, 65_600] {
        if maker.random.once_in(4) {
            maker.say(&format!("image {words}"));
            maker.say("layout");
            let scratch = *maker.random.pick(&[0, 1_023, 1_024]);
            maker.say(&format!("open {scratch}"));
            maker.say("join 1");
        }
    }
}

fn opening(maker: &mut Maker) {
    let small = maker.random.between(8, 40);
    let mut plan = any_plan(&mut maker.random, small);
    if maker.random.once_in(40) {
        plan = plan_with(&mut maker.random, 80, 64);
        plan.reach = 4;
    }
    let mut forged = forge(&mut maker.random, plan);
    for _ in 0..*maker.random.pick(&[0, 1, 1, 1, 2]) {
        let kind = maker.random.between(3, 9);
        damage(&mut maker.random, &mut forged, kind);
    }
    put(maker, &forged);
    let s = *maker.random.pick(&[1_024, 1_024, 1_024, 2_048, 1_025, 1_023, 0]);
    maker.say(&format!("open {s}"));
    maker.say("shared");
    maker.say("join 3");
    maker.say("read 3 0 4096");
    maker.say("record 3");
    maker.say("begin 3 5 700 9");
    maker.say("step 3 400");
    maker.say("open 1024");
}

fn mixed(maker: &mut Maker, lines: usize) {
    nearly_full_log(maker, lines / 4);
    for _ in 0..lines / 8 {
        if !maker.has_room() {
            return;
        }
        works(maker, 4);
        if maker.random.once_in(3) {
            let p = a_point(maker);
            alter_any(maker, p);
            call_any(maker, p);
        }
        if maker.random.once_in(6) {
            harm(maker);
        }
        if maker.random.once_in(6) {
            let places = maker.bench.image.len();
            let line = crate::malform::a_line(&mut maker.random, places);
            maker.say_raw(&line);
        }
        if maker.random.once_in(10) {
            cut_and_open(maker);
        }
    }
}

/// Maps broken into stretches of many kinds, and searches in them.
fn stretches(maker: &mut Maker, lines: usize) {
    let blocks = match maker.random.below(6) {
        0 => 1_024,
        1 => *maker.random.pick(&[1_023, 961, 960, 192, 129, 128, 127, 65, 64, 63]),
        2 => maker.random.between(4, 8),
        3 => maker.random.between(4, 1_024),
        _ => maker.random.between(9, 200),
    };
    laid_out(maker, blocks);
    for _ in 0..lines / 20 + 1 {
        put_map(maker, blocks);
        for _ in 0..maker.random.between(1, 6) {
            search(maker);
        }
        if maker.random.once_in(4) {
            maker.say("layout");
            maker.say("open 1024");
            join_some(maker);
            join_some(maker);
        }
    }
}

/// The words of a random map that are not there yet.
fn put_map(maker: &mut Maker, blocks: usize) {
    let map = a_map(&mut maker.random, blocks);
    for (i, word) in map.iter().enumerate() {
        if maker.bench.shared.map[i] != *word {
            maker.say(&format!("map {i} {word}"));
        }
    }
}

/// A point begins a write of 1 to 3 blocks; then it goes on, extends the log
/// or leaves.
fn search(maker: &mut Maker) {
    let idle = maker.joined_idle(true);
    let p = if idle.is_empty() { a_point(maker) } else { *maker.random.pick(&idle) };
    let count = maker.random.between(1, 3);
    let offset = 512 * maker.random.below(8) + 511;
    let length = [1, 2, 514][count - 1];
    maker.say(&format!("begin {p} {offset} {length} 9"));
    maker.say("shared");
    match maker.random.below(12) {
        0 => drop(maker.say(&format!("step {p} 200"))),
        1..=5 => extend(maker, p, count),
        _ => {}
    }
    if maker.random.once_in(2) {
        maker.say(&format!("leave {p}"));
        maker.say(&format!("join {p}"));
    }
}

/// Makes the point stand at a full log's end with its run filled, and lets it
/// look for a log block.
fn extend(maker: &mut Maker, p: usize, count: usize) {
    maker.say(&format!("alter {p} slot 64"));
    maker.say(&format!("alter {p} position {}", 64 * count));
    maker.say(&format!("step {p} 1"));
    maker.say(&format!("record {p}"));
    maker.say("shared");
}

/// Malformed lines among good ones; sometimes an input of the greatest
/// length, or of one byte more.
fn malformed(mut maker: Maker, lines: usize) -> Vec<u8> {
    let blocks = maker.random.between(4, 30);
    laid_out(&mut maker, blocks);
    for _ in 0..lines {
        let places = maker.bench.image.len();
        let line = crate::malform::a_line(&mut maker.random, places);
        maker.say_raw(&line);
        if maker.random.once_in(8) {
            works(&mut maker, 1);
        }
        if maker.random.once_in(60) {
            laid_out(&mut maker, blocks);
        }
    }
    look_at_all(&mut maker);
    crate::malform::with_an_end(maker)
}
