//! Scenes of K6: lists of points served by one call.

use crate::acts::*;
use crate::alterations::alter_any;
use crate::bench::MOST_LISTED;
use crate::forge::{broken_entry, lawful_entry};
use crate::image::*;
use crate::ladder::climb;
use crate::maker::Maker;
use crate::random::Random;
use crate::readers::{begin_read_line, renew};
use crate::standing::{chain_line, mend, report_line};

/// A write of the list: offset, length and seed.
pub type ListedWrite = (usize, usize, usize);

/// Calls that serve many points, on healthy and on altered ground.
pub fn serving(maker: &mut Maker, lines: usize) {
    open_for_serving(maker);
    for _ in 0..lines / 40 + 1 {
        if !maker.has_room() {
            return;
        }
        match maker.random.below(24) {
            0..=6 => serve_any(maker),
            7 | 8 => serve_short_log(maker),
            9 | 10 => serve_few_blocks(maker),
            11 | 12 => serve_misfits(maker),
            13 => serve_unfit_shared(maker),
            14 | 15 => serve_broken_ahead(maker),
            16 => serve_broken_behind(maker),
            17 | 18 => serve_bad_list(maker),
            19 => serve_as_another(maker),
            20 => works(maker, 4),
            _ => {
                climb(maker);
                open_for_serving(maker);
            }
        }
        if maker.joined_idle(true).len() < 2 || is_stuck(maker) || maker.random.once_in(12) {
            open_for_serving(maker);
        }
    }
}

/// An image with room or a nearly full log, and some or all points in it.
fn open_for_serving(maker: &mut Maker) {
    if maker.random.once_in(2) {
        open_nearly_full(maker);
    } else {
        let blocks = maker.random.between(8, 60);
        laid_out(maker, blocks);
    }
    join_many(maker);
}

/// Joins points; once in a while all 32.
fn join_many(maker: &mut Maker) {
    let rare = if maker.random.once_in(5) { 1 } else { 5 };
    for p in 0..32 {
        if !maker.bench.shared.has_joined(p) && maker.random.once_in(rare) {
            maker.say(&format!("join {p}"));
        }
    }
}

/// The numbers in another order.
fn shuffled(random: &mut Random, mut list: Vec<usize>) -> Vec<usize> {
    for i in 0..list.len() {
        let other = random.below(list.len());
        list.swap(i, other);
    }
    list
}

/// Up to `most` joined points in any order; most of them are idle.
fn a_list(maker: &mut Maker, most: usize) -> Vec<usize> {
    let busy = maker.joined_idle(false);
    let mut list = maker.joined_idle(true);
    if maker.random.once_in(4) {
        list.extend(busy);
    }
    let mut list = shuffled(&mut maker.random, list);
    let any = maker.random.between(1, most);
    list.truncate(*maker.random.pick(&[any, any, most]));
    list
}

/// Up to some points, more often all where all have joined.
fn a_common_list(maker: &mut Maker) -> Vec<usize> {
    let is_full = maker.joined().len() == 32 && maker.random.once_in(3);
    let most = *maker.random.pick(&[2, 3, 4, 4, 5, 6, 8, 32]);
    a_list(maker, if is_full { 32 } else { most })
}

/// A write for each of so many points: all over the same bytes, about the same blocks,
/// each in a block of its own, or anywhere. Long ones only for few points.
pub fn some_writes(random: &mut Random, count: usize) -> Vec<ListedWrite> {
    let base = an_offset(random) % 100_000;
    let (offset, length) = match random.below(4) {
        0 if (1..=5).contains(&count) => (512 * random.below(3) + 511, 514),
        1 if (1..=8).contains(&count) => (base, random.between(1, 1_024)),
        _ => (base, random.between(1, 600)),
    };
    let style = random.below(5);
    let write = |i: usize, random: &mut Random| match style {
        0 if count <= 8 => (offset, length),
        1 if count <= 8 => (offset / 512 * 512 + random.below(1_000), random.between(1, 600)),
        2 => (512 * (40 + 3 * i) + random.below(512), random.between(1, 40)),
        3 => (FILE_BYTES - random.between(1, 1_200), random.between(1, 600)),
        _ => (an_offset(random), a_length(random)),
    };
    (0..count).map(|i| write(i, random)).map(|(o, l)| (o, l, a_seed(o, l))).collect()
}

/// The seed of a write; which one it is does not matter.
fn a_seed(offset: usize, length: usize) -> usize {
    (31 * offset + length) % 256
}

/// The bench line of a list and its writes.
pub fn serve_line(list: &[usize], writes: &[ListedWrite]) -> String {
    let mut numbers = vec![list.len(), writes.len()];
    numbers.extend(list);
    numbers.extend(writes.iter().flat_map(|&(o, l, s)| [o, l, s]));
    let words: Vec<String> = numbers.iter().map(|number| number.to_string()).collect();
    format!("serve {}", words.join(" "))
}

/// Serves the list and looks at what is left.
fn serve(maker: &mut Maker, list: &[usize], writes: &[ListedWrite]) {
    maker.say(&serve_line(list, writes));
    look_after(maker, list);
}

/// The records of some of the list, the map, and the file of one.
pub fn look_after(maker: &mut Maker, list: &[usize]) {
    for &p in list {
        if list.len() < 4 || maker.random.once_in(4) {
            maker.say(&format!("record {p}"));
        }
    }
    maker.say("free");
    maker.say("shared");
    if let Some(&p) = list.first() {
        let v = maker.random.below(4);
        maker.say(&format!("read {p} {} 3000", 512 * v));
    }
    if maker.random.once_in(3) {
        digest_any(maker);
    }
}

/// A list of points, some of them perhaps in the middle of something.
pub fn serve_any(maker: &mut Maker) {
    if maker.random.once_in(4) {
        begin_any(maker);
    }
    if maker.random.once_in(6) {
        let p = a_beginner(maker);
        let line = begin_read_line(maker, p);
        maker.say(&line);
    }
    let list = a_common_list(maker);
    if list.is_empty() {
        return;
    }
    let writes = some_writes(&mut maker.random, list.len());
    serve(maker, &list, &writes);
}

/// The chain's last block and the slot of its tail, where one is there.
fn tail(maker: &Maker) -> Option<(usize, usize)> {
    let last = *maker.chain_met().last()?;
    let is_empty = |slot: &usize| maker.bench.image[place_of(last, *slot)] == 0;
    (FIRST_SLOT..END_SLOT).find(is_empty).map(|slot| (last, slot))
}

/// Puts lawful entries at the tail until only `left` slots are empty.
fn fill_log(maker: &mut Maker, left: usize) {
    let Some((block, slot)) = tail(maker) else { return };
    // The block's first entry again, or one that is far from the others.
    let entry = match maker.bench.image[place_of(block, FIRST_SLOT)] {
        0 => Entry { v: 240, b: 1, n: 1, u: 512, point: 0, rest: 0 }.pack(),
        known => known,
    };
    for slot in slot..END_SLOT.saturating_sub(left) {
        maker.say(&format!("set {} {entry}", place_of(block, slot)));
    }
}

/// The log has fewer empty slots than there are points: they extend, and lose links, or
/// meet 20 by the chain length.
fn serve_short_log(maker: &mut Maker) {
    let (chain, reports) = (maker.bench.shared.chain, maker.bench.shared.reports);
    let list = a_list(maker, 5);
    if list.is_empty() {
        return;
    }
    let left = maker.random.below(list.len() + 1);
    fill_log(maker, left);
    if maker.random.once_in(3) {
        let line = chain_line(maker);
        maker.say(&line);
    }
    let writes = some_writes(&mut maker.random, list.len());
    serve(maker, &list, &writes);
    if !(1..=MOST_LOG_BLOCKS).contains(&maker.bench.shared.chain) || maker.random.once_in(2) {
        mend(maker, chain, reports);
    }
}

/// Few blocks are left by the map: 19 and 21.
fn serve_few_blocks(maker: &mut Maker) {
    let blocks = maker.blocks();
    let list = a_list(maker, 6);
    if list.is_empty() || blocks > 64 {
        return;
    }
    let old = maker.bench.shared.map[0];
    let free: Vec<usize> = (1..blocks).filter(|block| old >> block & 1 == 0).collect();
    let kept = maker.random.between(1, 2 * list.len());
    let kept = shuffled(&mut maker.random, free).into_iter().take(kept);
    let map = kept.fold(u64::MAX, |map, block| map & !(1 << block));
    maker.say(&format!("map 0 {map}"));
    if maker.random.once_in(2) {
        let left = maker.random.below(list.len());
        fill_log(maker, left);
    }
    let writes = some_writes(&mut maker.random, list.len());
    serve(maker, &list, &writes);
    if maker.random.once_in(2) {
        cut_and_open(maker);
        join_many(maker);
    }
}

/// Records that do not fit, of points that are not joined, and altered ones in the list.
fn serve_misfits(maker: &mut Maker) {
    let list = a_list(maker, 6);
    for &p in &list {
        let slot = maker.random.between(1, 65);
        match maker.random.below(6) {
            0 => alter_any(maker, p),
            1 => drop(maker.say(&format!("alter {p} number {}", 32 + p))),
            2 => drop(maker.say(&format!("alter {p} slot {slot}"))),
            3 => {
                let line = begin_read_line(maker, p);
                maker.say(&line);
            }
            _ => {}
        }
    }
    let writes = some_writes(&mut maker.random, list.len());
    serve(maker, &list, &writes);
    for &p in &list {
        maker.say(&format!("alter {p} number {p}"));
        renew(maker, p);
    }
}

/// 10 for every point, or 26 or 27 before it.
fn serve_unfit_shared(maker: &mut Maker) {
    let (chain, reports) = (maker.bench.shared.chain, maker.bench.shared.reports);
    let blocks = maker.bench.shared.blocks;
    let line = match maker.random.below(3) {
        0 => format!("altershared blocks {}", blocks + 1),
        1 => format!("altershared chain {}", maker.random.pick(&[0, 65])),
        _ => report_line(maker),
    };
    maker.say(&line);
    if maker.random.once_in(2) {
        serve_any(maker);
    } else {
        serve_bad_list(maker);
    }
    if maker.bench.shared.blocks != blocks {
        maker.say(&format!("altershared blocks {blocks}"));
    }
    mend(maker, chain, reports);
}

/// A word behind the tail is broken: the first commit leads the others into it.
fn serve_broken_ahead(maker: &mut Maker) {
    let list = a_list(maker, 5);
    let Some((block, slot)) = tail(maker) else { return };
    if list.is_empty() {
        return;
    }
    let blocks = maker.blocks();
    let (place, bad) = if slot + 1 < END_SLOT {
        let ahead = place_of(block, maker.random.between(slot + 1, (slot + 3).min(END_SLOT - 1)));
        (ahead, broken_entry(&mut maker.random, 0x0000_0201_0001_0000, blocks))
    } else {
        (place_of(block, 0), (blocks + maker.random.below(2)) as u64)
    };
    maker.say(&format!("set {place} {bad}"));
    let writes = some_writes(&mut maker.random, list.len());
    serve(maker, &list, &writes);
    maker.say(&format!("set {place} 0"));
    for &p in &list {
        maker.say(&format!("step {p} 400"));
    }
}

/// A word before the tail is broken: whoever stands before it is refused at its
/// beginning.
fn serve_broken_behind(maker: &mut Maker) {
    let list = a_list(maker, 6);
    let Some((block, slot)) = tail(maker).filter(|&(_, slot)| slot > FIRST_SLOT) else { return };
    let blocks = maker.blocks();
    let broken = maker.random.between(FIRST_SLOT, slot - 1);
    let place = place_of(block, broken);
    let old = maker.bench.image[place];
    let bad = if maker.random.once_in(6) {
        lawful_entry(&mut maker.random, blocks)
    } else {
        broken_entry(&mut maker.random, old, blocks)
    };
    maker.say(&format!("set {place} {bad}"));
    for &p in &list {
        let slot = if maker.random.once_in(3) { broken } else { slot };
        maker.say(&format!("alter {p} block {block}"));
        maker.say(&format!("alter {p} slot {slot}"));
    }
    let writes = some_writes(&mut maker.random, list.len());
    serve(maker, &list, &writes);
    maker.say(&format!("set {place} {old}"));
    for &p in &list {
        renew(maker, p);
    }
}

/// A record is handed in with the number of a point that is joined and not in the list.
fn serve_as_another(maker: &mut Maker) {
    let Some((p, q)) = a_pair(maker) else { return };
    maker.say(&format!("alter {p} number {q}"));
    let mut list = a_list(maker, 4);
    list.retain(|&other| other != p && (other != q || maker.random.once_in(3)));
    list.push(p);
    let list = shuffled(&mut maker.random, list);
    let writes = some_writes(&mut maker.random, list.len());
    serve(maker, &list, &writes);
    maker.say(&format!("alter {p} number {p}"));
    renew(maker, p);
}

/// No points, more than 32, another count of writes, or a point listed twice.
fn serve_bad_list(maker: &mut Maker) {
    let mut list = a_common_list(maker);
    if list.len() < 2 {
        list = vec![3, 31];
    }
    match maker.random.below(8) {
        0 => list.clear(),
        1 => list = (0..*maker.random.pick(&[33, 33, 34, 40])).map(|i| i % 32).collect(),
        2 | 3 => list_again(maker, &mut list),
        4..=6 => number_again(maker, &list),
        _ => {}
    }
    let count = match maker.random.below(6) {
        0 => maker.random.below(41),
        1 => list.len() + 1,
        2 => list.len().saturating_sub(1),
        _ => list.len(),
    };
    let writes = some_writes(&mut maker.random, count.min(40));
    serve(maker, &list, &writes);
    for &p in list.iter().take(2) {
        maker.say(&format!("alter {p} number {p}"));
    }
}

/// A place stands in the list twice.
fn list_again(maker: &mut Maker, list: &mut Vec<usize>) {
    if let Some(&p) = list.first() {
        let at = maker.random.between(1, list.len());
        list.insert(at, p);
        list.truncate(MOST_LISTED as usize);
    }
}

/// Two places of the list have one number, above 31 or not.
fn number_again(maker: &mut Maker, list: &[usize]) {
    let number = match maker.random.below(3) {
        0 => list.first().copied().unwrap_or(0),
        1 => maker.random.below(32),
        _ => *maker.random.pick(&[32, 33, 64, 0xFFFF_FFFF]),
    };
    for &p in list.iter().take(2) {
        maker.say(&format!("alter {p} number {number}"));
    }
}
