//! Random inputs for the listing program.

use crate::forge::{any_plan, damage, forge, plan_with};
use crate::listing::MOST_BYTES;
use crate::random::Random;

/// The image's bytes, the words little-endian.
pub fn bytes_of(image: &[u64]) -> Vec<u8> {
    image.iter().flat_map(|word| word.to_le_bytes()).collect()
}

/// An input of one of several kinds.
pub fn make(mut random: Random, index: usize) -> Vec<u8> {
    let random = &mut random;
    match index % 16 {
        0 => odd_length(random),
        1 => noisy(random),
        2..=4 => bytes_of(&lawful(random)),
        5 => long_chain(random),
        // 6 to 12: damage that leads to refusals 3 to 9.
        6..=12 => damaged(random, &[index % 16 - 3]),
        13 => {
            let kinds = [random.between(3, 9), random.between(3, 9)];
            damaged(random, &kinds)
        }
        14 => full_size(random),
        _ => flipped(random),
    }
}

fn lawful(random: &mut Random) -> Vec<u64> {
    let plan = any_plan(random, 128);
    forge(random, plan).image()
}

/// Empty, broken words, one word or one block too few or too many.
fn odd_length(random: &mut Random) -> Vec<u8> {
    let mut bytes = bytes_of(&lawful(random));
    match random.below(7) {
        0 => bytes.clear(),
        1 => bytes.truncate(bytes.len() - random.between(1, 7)),
        2 => bytes.extend(vec![0; random.between(1, 7)]),
        3 => bytes.extend([0; 8]),
        4 => bytes.truncate(512 * random.below(4)),
        5 => bytes.resize(MOST_BYTES + random.between(1, 8), 0),
        _ => bytes.resize(MOST_BYTES + 512 * random.between(1, 4), 0),
    }
    bytes
}

fn noisy(random: &mut Random) -> Vec<u8> {
    let mut image = vec![0; 64 * random.between(4, 20)];
    if random.once_in(2) {
        crate::digest::noise(&mut image, random.any());
    }
    if random.once_in(2) {
        let _ = crate::image::lay_out(&mut image);
    }
    bytes_of(&image)
}

/// Chains of 61 to 64 log blocks, one more linked now and then.
fn long_chain(random: &mut Random) -> Vec<u8> {
    let full = random.between(61, 64);
    let plan = plan_with(random, 128, full);
    let mut forged = forge(random, plan);
    if random.once_in(2) {
        let last = forged.chain[forged.chain.len() - 1];
        let next = random.between(1, 129) as u64;
        forged.sets.push((64 * last, next));
    }
    bytes_of(&forged.image())
}

fn damaged(random: &mut Random, kinds: &[usize]) -> Vec<u8> {
    let plan = any_plan(random, 128);
    let mut forged = forge(random, plan);
    for &kind in kinds {
        damage(random, &mut forged, kind);
    }
    bytes_of(&forged.image())
}

/// Exactly 65,536 bytes, and one byte or one word more.
fn full_size(random: &mut Random) -> Vec<u8> {
    let full = random.below(6);
    let plan = plan_with(random, 128, full);
    let mut bytes = bytes_of(&forge(random, plan).image());
    bytes.resize(MOST_BYTES + *random.pick(&[0, 0, 0, 1, 8]), 0);
    bytes
}

/// Some bits of a lawful image flipped.
fn flipped(random: &mut Random) -> Vec<u8> {
    let mut bytes = bytes_of(&lawful(random));
    for _ in 0..random.between(1, 3) {
        let place = match random.below(3) {
            0 => random.below(1_024),
            1 => random.below(16),
            _ => random.below(bytes.len()),
        };
        bytes[place] ^= 1 << random.below(8);
    }
    bytes
}
