//! Random maps of taken blocks, broken into stretches of many kinds.

use crate::image::MOST_BLOCKS;
use crate::random::Random;

/// Whether each block that a map has a bit for is taken.
type Taken = [bool; MOST_BLOCKS];

/// A map for an image of `blocks` blocks; for one that is too short or too long, of the nearest number that has a map.
pub fn a_map(random: &mut Random, blocks: usize) -> [u64; 16] {
    let mut taken = [true; MOST_BLOCKS];
    if !random.once_in(8) {
        break_up(random, &mut taken);
    }
    if random.once_in(3) {
        whole_words(random, &mut taken);
    }
    front(random, &mut taken);
    end(random, &mut taken, blocks.clamp(2, MOST_BLOCKS));
    packed(&taken)
}

/// Stretches of mostly one length, with taken blocks between them.
fn break_up(random: &mut Random, taken: &mut Taken) {
    let usual = random.between(1, 4);
    let odd = *random.pick(&[3, 30, 10_000]);
    let odd_length = *random.pick(&[5, 5, 150]);
    let gap = *random.pick(&[1, 1, 2, 5, 70]);
    let mut block = random.below(3);
    while block < MOST_BLOCKS {
        let length = if random.once_in(odd) { random.between(1, odd_length) } else { usual };
        for free in block..(block + length).min(MOST_BLOCKS) {
            taken[free] = false;
        }
        block += length + random.between(1, gap);
    }
}

/// Map words of nothing but ones, of nothing but zeros, or of any bits.
fn whole_words(random: &mut Random, taken: &mut Taken) {
    for word in taken.chunks_mut(64) {
        let any = random.any();
        let bits = *random.pick(&[0, u64::MAX, any]);
        if random.once_in(2) {
            for (i, bit) in word.iter_mut().enumerate() {
                *bit = bits >> i & 1 == 1;
            }
        }
    }
}

/// Bit 0, now and then clear, and what follows it.
fn front(random: &mut Random, taken: &mut Taken) {
    taken[0] = !random.once_in(3);
    if random.once_in(2) {
        let length = random.below(5);
        taken[1..1 + length].fill(false);
        taken[1 + length] = true;
    }
}

/// A stretch up to the last block, and the bits past it.
fn end(random: &mut Random, taken: &mut Taken, blocks: usize) {
    if random.once_in(2) {
        let length = random.below(5.min(blocks - 1));
        taken[blocks - length - 1] = true;
        taken[blocks - length..blocks].fill(false);
    }
    match random.below(3) {
        0 => taken[blocks..].fill(true),
        1 => taken[blocks..].fill(false),
        _ => {}
    }
}

/// Bit b mod 64 of word b / 64 for block b.
fn packed(taken: &Taken) -> [u64; 16] {
    let mut map = [0; 16];
    for block in (0..MOST_BLOCKS).filter(|&block| taken[block]) {
        map[block / 64] |= 1 << (block % 64);
    }
    map
}
