//! Records and the shared record changed by hand.

use crate::acts::*;
use crate::forge::*;
use crate::maker::Maker;
use crate::maps::a_map;
use crate::readers::*;
use crate::standing::{chain_line, mend, report_line};

/// Records and the shared record changed by hand, then calls.
pub fn altered(maker: &mut Maker, lines: usize) {
    let plan = any_plan(&mut maker.random, 40);
    let forged = forge(&mut maker.random, plan);
    put(maker, &forged);
    maker.say("open 1024");
    join_some(maker);
    join_some(maker);
    for _ in 0..lines / 6 + 1 {
        if !maker.has_room() {
            return;
        }
        works(maker, 2);
        let (chain, reports) = (maker.bench.shared.chain, maker.bench.shared.reports);
        let p = a_point(maker);
        for _ in 0..maker.random.between(1, 3) {
            alter_any(maker, p);
        }
        call_any(maker, p);
        maker.say(&format!("record {p}"));
        maker.say("shared");
        digest_any(maker);
        if maker.random.once_in(2) {
            mend(maker, chain, reports);
        }
        if maker.random.once_in(4) {
            heal(maker, &forged);
        }
    }
}

/// One call of point p.
pub fn call_any(maker: &mut Maker, p: usize) {
    let o = an_offset(&mut maker.random);
    let line = match maker.random.below(13) {
        0..=5 => format!("step {p} {}", maker.random.pick(&[1, 1, 1, 2, 66, 130, 400])),
        6 => format!("begin {p} {o} {} 3", a_length(&mut maker.random)),
        7 => format!("leave {p}"),
        8 => format!("read {p} {o} 600"),
        9 => format!("show {p} {o} 30"),
        10 => format!("locate {p} {}", maker.random.below(4)),
        11 => begin_read_line(maker, p),
        _ => format!("view {p} {}", maker.random.below(4)),
    };
    maker.say(&line);
}

/// Opens again, sometimes from the first image.
fn heal(maker: &mut Maker, forged: &Forged) {
    if maker.random.once_in(3) {
        put(maker, forged);
    }
    maker.say("open 1024");
    if maker.bench.shared.blocks == 0 {
        maker.say("layout");
        maker.say("open 1024");
    }
    join_some(maker);
}

const FIELDS: [&str; 11] = [
    "number", "length", "block", "slot", "offset", "textlength", "run", "position", "zeroing",
    "retries", "phase",
];

/// One alteration, mostly of point p's record.
pub fn alter_any(maker: &mut Maker, p: usize) {
    let border = a_border(maker);
    let line = match maker.random.below(22) {
        0 => format!("table {p} {} {border}", maker.random.below(256)),
        1 => format!("table {p} {} {}", maker.random.below(4), maker.random.below(8)),
        2 => format!("text {p} {} {}", maker.random.below(1_024), maker.random.below(256)),
        3 => {
            let field = *maker.random.pick(&["blocks", "joined"]);
            format!("altershared {field} {border}")
        }
        4 => {
            let blocks = maker.blocks();
            let map = a_map(&mut maker.random, blocks);
            let i = *maker.random.pick(&[0, 0, (blocks - 1) / 64]);
            format!("map {i} {}", map[i])
        }
        5 => {
            let any = maker.random.any();
            let word = *maker.random.pick(&[0, u64::MAX, any]);
            format!("map {} {word}", maker.random.below(16))
        }
        6 => format!("map 0 {}", u64::MAX),
        7 => format!("copy {p} {}", maker.random.below(32)),
        8 | 9 => format!("alter {p} phase {}", maker.random.below(7)),
        10 => zeroing_scene(maker, p),
        11 => format!("alter {p} position {}", maker.random.below(194)),
        12 => format!("alter {p} {} {}", maker.random.pick(&FIELDS), maker.random.below(5)),
        13 => write_scene(maker, p),
        14 => format!("alter {p} number {}", maker.random.below(40)),
        15 => read_scene(maker, p),
        16 => report_line(maker),
        17 => chain_line(maker),
        _ => format!("alter {p} {} {border}", maker.random.pick(&FIELDS)),
    };
    maker.say(&line);
}

/// Makes the record one that zeroes a log block, all but its last word.
fn zeroing_scene(maker: &mut Maker, p: usize) -> String {
    let blocks = maker.blocks();
    let phase = *maker.random.pick(&[5, 5, 1, 2, 4]);
    let zeroing = maker.random.between(1, blocks);
    maker.say(&format!("alter {p} slot 64"));
    maker.say(&format!("alter {p} phase {phase}"));
    maker.say(&format!("alter {p} zeroing {zeroing}"));
    let line = chain_line(maker);
    maker.say(&line);
    format!("alter {p} position {}", maker.random.between(60, 65))
}

/// Makes the record one with a write of some size.
fn write_scene(maker: &mut Maker, p: usize) -> String {
    let blocks = maker.blocks();
    let phase = maker.random.between(1, 4);
    let offset = an_offset(&mut maker.random);
    let length = a_length(&mut maker.random);
    let run = maker.random.between(1, blocks);
    maker.say(&format!("alter {p} phase {phase}"));
    maker.say(&format!("alter {p} offset {offset}"));
    maker.say(&format!("alter {p} textlength {length}"));
    maker.say(&format!("alter {p} run {run}"));
    format!("alter {p} position {}", maker.random.below(194))
}
