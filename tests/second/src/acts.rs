//! Single acts of a random script, and small scenes of several points.

use crate::forge::{forge, Forged, Plan};
use crate::image::*;
use crate::maker::Maker;
use crate::random::Random;
use crate::readers::{begin_read_any, watch};
use crate::record::Phase;
use crate::servers::serve_any;

/// An offset: mostly near the edges of a few blocks.
pub fn an_offset(random: &mut Random) -> usize {
    match random.below(24) {
        0 => FILE_BYTES - random.below(1_100),
        1 => *random.pick(&[FILE_BYTES, FILE_BYTES + 1, 0xFFFF_FFFF, FILE_BYTES - 1]),
        2 => random.below(FILE_BYTES),
        3 | 4 => random.below(4_096),
        5..=9 => 512 * random.below(4),
        10..=14 => (512 * random.between(1, 4)) - random.between(1, 9),
        15..=17 => 512 * random.below(4) + 8 * random.below(64),
        18 | 19 => 512 * random.below(250),
        _ => random.below(1_536),
    }
}

/// A text length, rarely one that is turned down.
pub fn a_length(random: &mut Random) -> usize {
    match random.below(16) {
        0 => *random.pick(&[0, 1_024, 1_025, 1_100]),
        1 => random.between(1, 1_024),
        2 => *random.pick(&[255, 256, 257, 511, 512, 513, 514, 1_023, 1_024]),
        3 | 4 => 512,
        5 | 6 => random.between(500, 530),
        7 | 8 => 8 * random.between(1, 64),
        _ => random.between(1, 40),
    }
}

/// A number at or near a border of some field.
pub fn a_border(maker: &mut Maker) -> usize {
    let blocks = maker.blocks();
    let random = &mut maker.random;
    match random.below(12) {
        0 => random.below(5),
        1 => blocks + random.below(3) - 1,
        2 => random.between(1, blocks),
        3 => random.between(62, 66),
        4 => random.between(126, 130),
        5 => random.between(190, 194),
        6 => random.between(510, 514),
        7 => random.between(1_022, 1_026),
        8 => random.between(131_070, 131_074),
        9 => *random.pick(&[0xFFFF_FFFF, 0xFFFF_FFFE, 0x8000_0000, 65_535, 65_536]),
        10 => random.below(200_000),
        _ => random.below(64),
    }
}

/// Any point, mostly a joined one.
pub fn a_point(maker: &mut Maker) -> usize {
    let joined = maker.joined();
    if joined.is_empty() || maker.random.once_in(12) {
        maker.random.below(32)
    } else {
        *maker.random.pick(&joined)
    }
}

/// A point that can begin, mostly.
pub fn a_beginner(maker: &mut Maker) -> usize {
    let idle = maker.joined_idle(true);
    if idle.is_empty() || maker.random.once_in(16) {
        a_point(maker)
    } else {
        *maker.random.pick(&idle)
    }
}

pub fn begin_any(maker: &mut Maker) {
    let p = a_beginner(maker);
    let (o, l) = (an_offset(&mut maker.random), a_length(&mut maker.random));
    let s = maker.random.below(256);
    maker.say(&format!("begin {p} {o} {l} {s}"));
}

pub fn step_any(maker: &mut Maker) {
    let busy = maker.joined_idle(false);
    if busy.is_empty() && !maker.random.once_in(6) {
        return begin_any(maker);
    }
    let p = if busy.is_empty() || maker.random.once_in(20) {
        a_point(maker)
    } else {
        *maker.random.pick(&busy)
    };
    let near = maker.steps_to_commit(p);
    let k = match maker.random.below(10) {
        0 => maker.random.between(1, 70),
        1 => 1,
        2 => near.max(1),
        3 | 4 => near + 1,
        5 => near + 2,
        6 => near.saturating_sub(1).max(1),
        _ => 400,
    };
    maker.say(&format!("step {p} {k}"));
}

pub fn look_any(maker: &mut Maker) {
    let p = a_point(maker);
    let o = an_offset(&mut maker.random);
    let v = match maker.random.below(6) {
        0 => *maker.random.pick(&[255, 256, 257, 0xFFFF_FFFF]),
        1 => maker.random.below(256),
        _ => maker.random.below(8),
    };
    let line = match maker.random.below(8) {
        0 => format!("read {p} {o} {}", maker.random.below(4_097)),
        1 => format!("read {p} 0 4096"),
        2 => format!("show {p} {o} {}", maker.random.below(65)),
        3 => format!("locate {p} {v}"),
        4 => format!("view {p} {v}"),
        5 => format!("record {p}"),
        6 => "shared".to_string(),
        _ => "free".to_string(),
    };
    maker.say(&line);
}

pub fn digest_any(maker: &mut Maker) {
    if maker.bench.image.len() < 4_096 || maker.random.once_in(16) {
        maker.say("digest");
    } else {
        let place = maker.random.below(maker.bench.image.len());
        maker.say(&format!("word {place}"));
    }
}

pub fn join_any(maker: &mut Maker) {
    let p = maker.random.below(32);
    let line = match maker.random.below(12) {
        0 => format!("joinas {}", maker.random.pick(&[31u32, 32, 33, 64, 0xFFFF_FFFF])),
        1 => format!("joinas {p}"),
        _ => format!("join {p}"),
    };
    maker.say(&line);
}

pub fn leave_any(maker: &mut Maker) {
    let p = a_point(maker);
    maker.say(&format!("leave {p}"));
    maker.say("shared");
}

/// Power loss, opening again and joining again.
pub fn cut_and_open(maker: &mut Maker) {
    if !maker.random.once_in(8) {
        maker.say("cut");
    }
    let s = *maker.random.pick(&[1_024, 1_024, 1_025, 2_048]);
    maker.say(&format!("open {s}"));
    join_some(maker);
}

pub fn join_some(maker: &mut Maker) {
    for _ in 0..maker.random.between(1, 4) {
        let p = maker.random.below(32);
        maker.say(&format!("join {p}"));
    }
}

/// Whether ordinary work can do nothing but be refused.
pub fn is_stuck(maker: &Maker) -> bool {
    let shared = &maker.bench.shared;
    let blocks = shared.blocks.min(MOST_BLOCKS);
    maker.joined_idle(false).is_empty() && (0..blocks).all(|block| shared.is_taken(block))
}

/// One random act of ordinary work.
pub fn work(maker: &mut Maker) {
    if is_stuck(maker) && maker.random.once_in(12) {
        let blocks = maker.random.between(4, 24);
        laid_out(maker, blocks);
    }
    match maker.random.below(40) {
        0..=8 => begin_any(maker),
        9 | 10 => begin_read_any(maker),
        11..=26 => step_any(maker),
        27..=33 => look_any(maker),
        34 => digest_any(maker),
        35 | 36 if maker.joined().len() < 6 => join_any(maker),
        37 => leave_any(maker),
        38 if maker.random.once_in(4) => cut_and_open(maker),
        38 if maker.random.once_in(8) => serve_any(maker),
        39 if maker.random.once_in(4) => race_to_extend(maker),
        39 if maker.random.once_in(3) => conflict(maker),
        39 => watch(maker),
        _ => look_any(maker),
    }
}

pub fn works(maker: &mut Maker, lines: usize) {
    for _ in 0..lines {
        if maker.has_room() {
            work(maker);
        }
    }
}

/// Two joined idle points, if there are.
pub fn a_pair(maker: &mut Maker) -> Option<(usize, usize)> {
    let idle = maker.joined_idle(true);
    if idle.len() < 2 {
        return None;
    }
    let i = maker.random.below(idle.len());
    let j = (i + maker.random.between(1, idle.len() - 1)) % idle.len();
    Some((idle[i], idle[j]))
}

/// Two points write over the same edges; the second commits first.
pub fn conflict(maker: &mut Maker) {
    let Some((p, q)) = a_pair(maker) else { return };
    let o = an_offset(&mut maker.random) % 100_000;
    let l = a_length(&mut maker.random).clamp(1, 1_024);
    let o2 = match maker.random.below(4) {
        0 => o,
        1 => o + l,
        2 => (o / 512) * 512 + maker.random.below(512),
        _ => ((o + l) / 512) * 512 + maker.random.below(512),
    };
    let l2 = a_length(&mut maker.random).clamp(1, 1_024);
    let s = maker.random.below(128);
    maker.say(&format!("begin {p} {o} {l} {s}"));
    maker.say(&format!("begin {q} {o2} {l2} {}", s + 100));
    if maker.random.once_in(2) {
        let k = maker.steps_to_commit(p).max(1);
        maker.say(&format!("step {p} {k}"));
    }
    if maker.random.once_in(12) {
        let retries = maker.random.between(65_533, 65_535);
        maker.say(&format!("alter {p} retries {retries}"));
    }
    maker.say(&format!("step {q} 400"));
    let k = *maker.random.pick(&[400, 400, 65, 66, 129, 130, 193, 194]);
    maker.say(&format!("step {p} {k}"));
    maker.say(&format!("record {p}"));
    maker.say(&format!("read {q} {} 2048", (o / 512) * 512));
}

/// Several points want a new log block at once.
pub fn race_to_extend(maker: &mut Maker) {
    let Some((p, q)) = a_pair(maker) else { return };
    let o = an_offset(&mut maker.random) % 100_000;
    for point in [p, q] {
        maker.say(&format!("begin {point} {o} 9 {point}"));
        maker.say(&format!("step {point} 64"));
    }
    for point in [p, q, p, q] {
        if maker.phase(point) != Phase::Idle {
            let k = *maker.random.pick(&[1, 1, 2, 30, 65, 66, 67]);
            maker.say(&format!("step {point} {k}"));
            maker.say(&format!("record {point}"));
        }
    }
    maker.say("shared");
    if maker.random.once_in(3) {
        maker.say(&format!("leave {p}"));
        maker.say("shared");
        maker.say(&format!("join {p}"));
    }
    maker.say(&format!("step {q} 400"));
    maker.say(&format!("step {p} 400"));
    maker.say(&format!("record {p}"));
}

/// A fresh image, opened, with some points joined.
pub fn laid_out(maker: &mut Maker, blocks: usize) {
    let words = BLOCK_WORDS * blocks;
    maker.say(&format!("image {words}"));
    if !maker.random.once_in(4) {
        let seed = maker.random.any();
        maker.say(&format!("noise 0 {words} {seed}"));
    }
    maker.say("layout");
    maker.say("open 1024");
    join_some(maker);
}

/// A forged image, not yet opened.
pub fn put(maker: &mut Maker, forged: &Forged) {
    for line in forged.lines() {
        maker.say(&line);
    }
}

/// An opened image whose log has a few slots left in its last block, and some points
/// joined.
pub fn open_nearly_full(maker: &mut Maker) {
    let full = maker.random.below(4);
    let blocks = maker.random.between(full + 8, 80);
    let plan = Plan {
        blocks,
        full,
        more: Some(maker.random.between(50, 61)),
        spare: maker.random.between(1, 20),
        reach: *maker.random.pick(&[3, 6, 20, 256]),
        used: 512,
    };
    let forged = forge(&mut maker.random, plan);
    put(maker, &forged);
    maker.say("open 1024");
    join_some(maker);
    join_some(maker);
}
