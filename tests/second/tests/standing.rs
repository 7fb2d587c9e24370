//! Document 02, K4: where each point stands.

mod chains;

use std::fs;
use std::path::PathBuf;

use chains::{full_block, long_chain};
use second::bench::Bench;
use second::record::{Phase, Record, Shared, Write};
use second::refusal::Refusal;
use second::step::{step, Answer};
use second::tally::EVENTS;

fn says(bench: &mut Bench, line: &str) -> String {
    bench.line(line.as_bytes())
}

/// 10: "a reported block that is not below the block count or a chain length not 1 to 64".
#[test]
fn what_10_looks_at() {
    let fit = Shared { blocks: 16, chain: 1, ..Shared::zero() };
    let with_report = |p: usize, block: usize, joined: u32| {
        let mut shared = Shared { joined, ..fit.clone() };
        shared.report(p, block);
        shared.is_fit(1_024)
    };
    for p in 0..32 {
        for joined in [0, 1 << p, u32::MAX] {
            assert!([0, 1, 15].iter().all(|&block| with_report(p, block, joined)));
            assert!(![16, 17, 65_537, usize::MAX].iter().any(|&b| with_report(p, b, joined)));
        }
    }
    let with_chain = |chain: usize| Shared { chain, ..fit.clone() }.is_fit(1_024);
    assert!((1..=64).all(with_chain));
    assert!(![0, 65, 66, 128, 320, usize::MAX].into_iter().any(with_chain));
}

/// A record that has zeroed block 3 for the log, and holds block 2 for its run.
fn zeroed() -> Record {
    let mut record = Record::new(7, 1);
    record.view.slot = 64;
    let phase = Phase::Zeroing;
    record.write =
        Write { text_length: 8, run: 2, phase, position: 64, zeroing: 3, ..Write::idle() };
    record
}

/// The link, a lost link and 20, for every chain length.
#[test]
fn after_zeroing() {
    let record = zeroed();
    for chain in 1..=64 {
        for next in [0, 5, u64::MAX] {
            let mut image = vec![0; 1_024];
            image[64] = next;
            let mut before = Shared { blocks: 16, joined: 128, chain, ..Shared::zero() };
            (0..4).for_each(|block| before.take(block));
            before.report(7, 9);
            let (answer, shared, after) = step(&mut image, &before, &record);
            let mut expected = before.clone();
            if next != 0 {
                expected.free(3);
                assert_eq!((answer, image[64]), (Answer::Moved, next));
            } else if chain == 64 {
                expected.free(2);
                expected.free(3);
                assert_eq!((answer, image[64]), (Answer::Refused(Refusal::LogFull), 0));
                assert_eq!(after, Record { write: Write::idle(), ..record.clone() });
            } else {
                expected.chain += 1;
                expected.report(7, 3);
                assert_eq!((answer, image[64]), (Answer::Stored, 3));
                assert_eq!((after.view.block, after.view.slot), (3, 2));
            }
            assert_eq!(shared, expected, "chain length {chain}, next index {next}");
        }
    }
}

/// Where Extending would begin the chain length alone decides.
#[test]
fn extending() {
    let phase = Phase::Filling;
    let write = Write { phase, position: 64, zeroing: 0, ..zeroed().write };
    let record = Record { write, ..zeroed() };
    for chain in 1..=64 {
        let before = Shared { blocks: 16, joined: 128, map: [7; 16], chain, ..Shared::zero() };
        let (answer, shared, _) = step(&mut vec![0; 1_024], &before, &record);
        let mut expected = before.clone();
        if chain == 64 {
            expected.free(2);
            assert_eq!(answer, Answer::Refused(Refusal::LogFull));
        } else {
            expected.take(3);
            assert_eq!(answer, Answer::Extending);
        }
        assert_eq!(shared, expected, "chain length {chain}");
    }
}

/// "in place of a 65th": a catch-up goes on past 64 log blocks.
#[test]
fn more_than_64_log_blocks() {
    for entered in [1, 63, 64, 65, 70] {
        let mut bench = Bench::new();
        bench.script(long_chain(80, entered).as_bytes());
        assert_eq!(says(&mut bench, "locate 0 0"), "located 3\n");
        assert_eq!(says(&mut bench, "beginread 0 0 8"), "begun\n");
        assert_eq!(says(&mut bench, "begin 1 0 8 1"), "begun run 2\n");
        assert_eq!(bench.shared.reports[..3], [entered + 1, entered + 1, 0]);
        assert_eq!(bench.shared.chain, 1);
    }
}

/// All blocks of an image follow each other in a ring. With one empty slot in the first a
/// catch-up from its slot 64 enters as many blocks as can be; without, it never ends.
#[test]
fn rings() {
    for blocks in 4..=9 {
        let mut bench = Bench::new();
        bench.script(long_chain(blocks, blocks - 1).as_bytes());
        says(&mut bench, &format!("set {} 1", 64 * (blocks - 1)));
        says(&mut bench, "alter 0 slot 64");
        assert_eq!(says(&mut bench, "begin 0 0 8 1"), "refused 18\n");
        assert_eq!(says(&mut bench, "set 127 0"), "set\n");
        assert_eq!(says(&mut bench, "begin 0 0 8 1"), "begun run 2\n");
        assert_eq!((bench.records[0].view.block, bench.records[0].view.slot), (1, 63));
    }
}

/// A block that leads to itself.
#[test]
fn a_loop_of_one() {
    let mut bench = Bench::new();
    bench.script(long_chain(16, 0).as_bytes());
    bench.script(full_block(1, 1).as_bytes());
    for line in ["begin 0 0 8 1", "beginread 0 0 8", "show 0 0 1", "locate 0 0"] {
        assert_eq!(says(&mut bench, line), "refused 18\n", "{line}");
    }
    assert_eq!(bench.shared.reports[..3], [1, 1, 0]);
}

/// The kept script meets every situation of K4 but those of a long log.
#[test]
fn the_kept_standing_meets_everything() {
    let path = PathBuf::from(env!("CARGO_MANIFEST_DIR")).join("tests/standing.script");
    let mut bench = Bench::new();
    bench.script(&fs::read(path).expect("a kept file"));
    let of_k4 = |event: &str| {
        let words = ["report", "let through", "10 by", "20", "chain", "65th", "circle"];
        !event.starts_with("served") && words.iter().any(|word| event.contains(word))
    };
    for event in EVENTS.into_iter().filter(|event| of_k4(event)) {
        assert!(bench.tally.of("event", event) > 0, "{event}");
    }
}
