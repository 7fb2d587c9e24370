//! Document 02, K1: reads taken in steps.

use std::fs;
use std::path::PathBuf;

use second::bench::Bench;
use second::random::Random;
use second::record::{Phase, Record, Write};
use second::tally::{Tally, EVENTS};
use second::world::longest_read;

fn says(bench: &mut Bench, line: &str) -> String {
    bench.line(line.as_bytes())
}

/// A laid-out image with points 0 and 1.
fn opened(blocks: usize) -> Bench {
    let mut bench = Bench::new();
    says(&mut bench, &format!("image {}", 64 * blocks));
    for line in ["layout", "open 1024", "join 0", "join 1"] {
        says(&mut bench, line);
    }
    bench
}

#[test]
fn the_longest_read() {
    assert_eq!(longest_read(), Ok(260));
}

/// "the file's aligned words offset / 8 to (end − 1) / 8, up to 129"
#[test]
fn touched_words() {
    let words = |offset: usize, text_length: usize| {
        Write { offset, text_length, ..Write::idle() }.range_words()
    };
    assert_eq!((words(0, 1), words(7, 1), words(7, 2), words(8, 8)), (1, 1, 2, 1));
    assert_eq!((words(0, 1_024), words(1, 1_024), words(7, 1_024)), (128, 129, 129));
    assert_eq!((words(500, 100), words(131_071, 1), words(130_048, 1_024)), (13, 1, 128));
    for offset in 0..40 {
        for length in 1..40 {
            let touched = |word: usize| (offset..offset + length).any(|place| place / 8 == word);
            let count = (0..20).filter(|&word| touched(word)).count();
            assert_eq!(words(offset, length), count, "{length} at {offset}");
        }
    }
}

/// A beginning takes no block, and leaves of the record the range alone.
#[test]
fn a_beginning() {
    let mut bench = opened(16);
    let shared = bench.shared.clone();
    assert_eq!(says(&mut bench, "beginread 1 9 5"), "begun\n");
    assert_eq!(bench.shared, shared);
    let write = Write { offset: 9, text_length: 5, phase: Phase::Reading, ..Write::idle() };
    assert_eq!(bench.records[1], Record { write, ..Record::new(1, 1) });
}

#[test]
fn malformed_lines() {
    let mut bench = opened(16);
    for line in [
        "beginread", "beginread 1 0", "beginread 1 0 1 1", "beginread 32 0 1", "beginread 1 0 1101",
        "beginread 1 4294967296 1", "alter 1 phase 7", "Beginread 1 0 1", "begin read 1 0 1",
    ] {
        assert_eq!(says(&mut bench, line), "error\n", "{line}");
    }
    for line in ["beginread 1 4294967295 1", "beginread 1 131072 1"] {
        assert_eq!(says(&mut bench, line), "refused 17\n", "{line}");
    }
    assert_eq!(says(&mut bench, "beginread 1 0 1100"), "refused 16\n");
    assert_eq!(says(&mut bench, "alter 1 phase 6"), "altered\n");
}

/// A write takes both free blocks; a read needs none.
#[test]
fn no_room() {
    let mut bench = opened(4);
    says(&mut bench, "begin 0 511 2 1");
    assert_eq!(says(&mut bench, "begin 1 0 1 1"), "refused 19\n");
    assert_eq!(says(&mut bench, "beginread 1 0 1024"), "begun\n");
    assert_eq!(says(&mut bench, "free"), "free 0\n");
}

/// Among other points' writes a lone reader ends within 260 steps, whatever the
/// range and whenever the others commit.
#[test]
fn every_read_ends() {
    let mut random = Random::new(7);
    let mut bench = opened(64);
    for _ in 0..300 {
        let (offset, length) = (random.below(3_000), random.between(1, 1_024));
        says(&mut bench, &format!("beginread 1 {offset} {length}"));
        for _ in 0..random.below(3) {
            says(&mut bench, &format!("step 1 {}", random.between(1, 140)));
            let (offset, length) = (random.below(3_000), random.between(1, 600));
            says(&mut bench, &format!("begin 0 {offset} {length} 5"));
            says(&mut bench, "step 0 400");
            assert!(bench.records[0].is_idle());
        }
        says(&mut bench, "step 1 260");
        assert!(bench.records[1].is_idle());
    }
}

/// The kept script meets every answer, refusal and situation of a read.
#[test]
fn the_kept_reads_meet_everything() {
    let path = PathBuf::from(env!("CARGO_MANIFEST_DIR")).join("tests/reading.script");
    let mut bench = Bench::new();
    bench.script(&fs::read(path).expect("a kept file"));
    let of_a_read = |event: &str| {
        let of_k4 = event.starts_with("report") || event.contains("circle");
        let of_k6 = event.starts_with("served");
        !of_k4 && !of_k6 && (event.contains("read") || event.contains("copied"))
    };
    for event in EVENTS.into_iter().filter(|event| of_a_read(event)) {
        assert!(bench.tally.of("event", event) > 0, "{event}");
    }
    let mut answers = Tally::table();
    answers.retain(|(call, _)| call == "beginread");
    answers.extend(["copied", "read"].map(|answer| ("step".to_string(), answer.to_string())));
    assert_eq!(answers.len(), 10);
    for (call, answer) in answers {
        assert!(bench.tally.of(&call, &answer) > 0, "{call}: {answer}");
    }
}
