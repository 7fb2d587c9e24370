//! Document 02, K2: the search, against its sentence read once more.

use std::fs;
use std::path::PathBuf;

use second::bench::Bench;
use second::map::take_run;
use second::maps::a_map;
use second::random::Random;
use second::record::Shared;
use second::tally::EVENTS;

fn shared(blocks: usize, map: [u64; 16]) -> Shared {
    Shared { blocks, map, chain: 1, ..Shared::zero() }
}

/// "a stretch goes, from block 1 on, as far as no block is taken": whether
/// these blocks are one.
fn is_stretch(shared: &Shared, start: usize, length: usize) -> bool {
    let is_free = |block: usize| (1..shared.blocks).contains(&block) && !shared.is_taken(block);
    (start..start + length).all(is_free) && !is_free(start - 1) && !is_free(start + length)
}

/// "the shortest free stretch that is long enough, the lowest of equals":
/// lengths are tried upwards, for each of them all starts upwards.
fn first_of_the_shortest(shared: &Shared, count: usize) -> Option<usize> {
    (count..shared.blocks)
        .flat_map(|length| (1..shared.blocks).map(move |start| (start, length)))
        .find(|&(start, length)| is_stretch(shared, start, length))
        .map(|(start, _)| start)
}

fn check(before: &Shared) {
    for count in 1..=3 {
        let expected = first_of_the_shortest(before, count);
        let taken = take_run(before, count);
        assert_eq!(taken.as_ref().map(|(start, _)| *start), expected, "{count} in {before:?}");
        let Some((start, after)) = taken else { continue };
        let mut map = before.map;
        (start..start + count).for_each(|block| map[block / 64] |= 1 << (block % 64));
        assert_eq!(after, shared(before.blocks, map));
    }
}

/// Every map of 4 to 10 blocks, bit 0 set and clear, with set and with clear
/// bits past the last block.
#[test]
fn every_small_map() {
    for blocks in 4..=10 {
        for bits in 0..1 << blocks {
            let mut map = [0; 16];
            map[0] = bits;
            check(&shared(blocks, map));
            map = [u64::MAX; 16];
            map[0] = bits | u64::MAX << blocks;
            check(&shared(blocks, map));
        }
    }
}

#[test]
fn large_maps() {
    let mut random = Random::new(2);
    for blocks in [63, 64, 65, 127, 128, 129, 200] {
        for _ in 0..20 {
            check(&shared(blocks, a_map(&mut random, blocks)));
        }
    }
    for blocks in [960, 1_023, 1_024] {
        check(&shared(blocks, a_map(&mut random, blocks)));
    }
}

/// 10 asks for the block count alone.
#[test]
fn no_next_place() {
    for blocks in [0, 3, 1_025] {
        assert!(!shared(blocks, [0; 16]).is_fit(64 * blocks));
    }
    for blocks in [4, 16, 1_024] {
        assert!(shared(blocks, [u64::MAX; 16]).is_fit(64 * blocks));
        assert!(!shared(blocks, [0; 16]).is_fit(64 * blocks + 64));
    }
}

/// 16 blocks, 130 writes of 512 bytes, the i-th, from 1, at 512 × (i mod 3):
/// the example of the session program's page for the time after K5.
///
/// The first three writes take 2, 3 and 4. From then on four blocks, 2 to 5,
/// serve three virtual blocks: each commit frees one, which is the shortest
/// stretch. The 63rd write, at 0, holds 4 when it needs a log block: 2, 3 and
/// 5 are live, and 6 to 15 is the one free stretch. So the second log block is
/// 6 and, 62 writes later, the third is 7. After 130 writes 2, 3 and 5 are
/// live again, and 4 is the shortest stretch.
#[test]
fn log_blocks_between_writes() {
    let mut bench = Bench::new();
    for line in ["image 1024", "layout", "open 1024", "join 0", "join 1"] {
        bench.line(line.as_bytes());
    }
    for i in 1..=130 {
        let run = bench.line(format!("begin 0 {} 512 {i}", 512 * (i % 3)).as_bytes());
        assert_eq!(run, format!("begun run {}\n", [5, 2, 3, 4][i % 4]), "write {i}");
        bench.line(b"step 0 400");
        assert!(bench.records[0].is_idle());
    }
    assert_eq!((bench.image[64], bench.image[64 * 6]), (6, 7));
    assert_eq!(bench.records[0].view.block, 7);
    assert_eq!(bench.line(b"begin 1 0 1 1"), "begun run 4\n");
}

/// The kept script meets every situation in which wrong searches differ.
#[test]
fn the_kept_stretches_meet_every_event() {
    let path = PathBuf::from(env!("CARGO_MANIFEST_DIR")).join("tests/stretches.script");
    let mut bench = Bench::new();
    bench.script(&fs::read(path).expect("a kept file"));
    let of_a_search = |event: &str| {
        ["found", "extending, not", "19", "21"].iter().any(|first| event.starts_with(first))
    };
    for event in EVENTS.into_iter().filter(|event| of_a_search(event)) {
        assert!(bench.tally.of("event", event) > 0, "{event}");
    }
}
