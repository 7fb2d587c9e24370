//! The inspector: the page's examples, and each rule by hand.

use std::fs;
use std::path::PathBuf;

use second::damage;
use second::image::{is_size, lay_out, place_of};
use second::images::bytes_of;
use second::inspect::{inspect, RULES, SENTENCES};
use second::open::open;
use second::place::{agrees, named_in, Behind, Named};
use second::random::Random;
use second::spots;

/// A laid-out image of zeros with some words set, each by block and word.
fn image(blocks: usize, sets: &[(usize, usize, u64)]) -> Vec<u64> {
    let mut image = vec![0; 64 * blocks];
    lay_out(&mut image).expect("a fit size");
    for &(block, word, value) in sets {
        image[place_of(block, word)] = value;
    }
    image
}

fn says(image: &[u64]) -> String {
    inspect(&bytes_of(image))
}

/// The fault's line and the rule's number, for instance "block 1 word 3, value 0x... 7.4".
fn fault(image: &[u64]) -> String {
    fault_of_bytes(&bytes_of(image))
}

fn fault_of_bytes(bytes: &[u8]) -> String {
    let text = inspect(bytes);
    let lines: Vec<&str> = text.lines().take(3).collect();
    assert!(lines[0].starts_with("refused "), "{}", lines[0]);
    let place = lines[1].strip_prefix("fault at ").expect("the place");
    let rule = lines[2].strip_prefix("rule ").and_then(|rule| rule.split(": ").next());
    let rule = rule.expect("the rule");
    assert_eq!(rule.split('.').next(), lines[0][8..].split(": ").next(), "{text}");
    format!("{place} {rule}")
}

/// The line that begins so.
fn line(image: &[u64], start: &str) -> String {
    let text = says(image);
    text.lines().find(|line| line.starts_with(start)).unwrap_or("").to_string()
}

/// One virtual block v in block b, all bytes used, point 0: u 512 is bit 49.
fn one(v: u64, b: u64) -> u64 {
    0x0002_0001_0000_0000 + (b << 16) + v
}

/// The first example's log. Blocks 5 to 7 are live: 32 blocks less the superblock, the
/// log block and these are 27, and 8 to 31 are 24 in a row.
#[test]
fn an_image_that_opens() {
    let log = [
        (1, 2, 0x0000_8001_0002_0000),
        (1, 3, 0x0009_8001_0004_0000),
        (1, 4, 0x0005_0001_0003_0000),
        (1, 5, 0x000C_3C03_0005_0000),
    ];
    let expected = "\
opens
length 1084, entries 4, free blocks 27, longest free stretch 24

blocks 32: S superblock, L log, # live, . free
   0 SL...###........................

log blocks 1
entry 1, block 1 word 2: point 0, virtual block 0 in block 2, 128 bytes used of the last, overruled all
entry 2, block 1 word 3: point 2, virtual block 0 in block 4, 384 bytes used of the last, overruled all
entry 3, block 1 word 4: point 1, virtual block 0 in block 3, 256 bytes used of the last, overruled all
entry 4, block 1 word 5: point 3, virtual blocks 0 to 2 in blocks 5 to 7, 60 bytes used of the last, overruled none

table: virtual block, block
0 5
1 6
2 7
";
    assert_eq!(says(&image(32, &log)), expected);
}

/// The second example: u 513 is bits 40 and 49, the point 3 bits 50 and 51.
#[test]
fn an_image_that_is_refused() {
    let log = [(1, 2, 0x0000_8001_0002_0000), (1, 3, 0x000E_0102_0002_0000)];
    let expected = "\
refused 7: an entry of the log breaks the rules of entries
fault at block 1 word 3, value 0x000E010200020000
rule 7.4: an entry's last block has at most 512 used bytes
as far as it can be read:
length 128, entries 1, free blocks 29, longest free stretch 29

blocks 32: S superblock, L log, # live, . free
   0 SL#.............................

log blocks 1
entry 1, block 1 word 2: point 0, virtual block 0 in block 2, 128 bytes used of the last, overruled none

table: virtual block, block
0 2
";
    assert_eq!(says(&image(32, &log)), expected);
}

#[test]
fn an_empty_file() {
    let expected = "\
opens
length 0, entries 0, free blocks 2, longest free stretch 2

blocks 4: S superblock, L log, # live, . free
   0 SL..

log blocks 1
no entries

table: empty
";
    assert_eq!(says(&image(4, &[])), expected);
}

/// Rows of 64, the last one shorter, and numbers in four places.
#[test]
fn rows_of_the_map() {
    let rows = |blocks: usize| -> Vec<String> {
        let text = says(&image(blocks, &[]));
        text.lines().skip(4).take_while(|line| !line.is_empty()).map(str::to_string).collect()
    };
    assert_eq!(rows(64), [format!("   0 SL{}", ".".repeat(62))]);
    assert_eq!(rows(65)[1..], ["  64 ."]);
    assert_eq!(rows(129)[1..], [format!("  64 {}", ".".repeat(64)), " 128 .".to_string()]);
    let rows = rows(1_024);
    assert_eq!(rows.len(), 16);
    assert_eq!(rows[15], format!(" 960 {}", ".".repeat(64)));
}

/// The log block is block 3, 1 and 2 and 4 to 7 are free: the longest row is neither the
/// first nor with block 0. With block 5 live it is 6 and 7 or 1 and 2; with 6 live, the
/// last block stands alone.
#[test]
fn the_longest_free_stretch() {
    let free = |log: &[u64]| {
        let mut sets = vec![(0, 1, 3)];
        sets.extend(log.iter().enumerate().map(|(i, &word)| (3, 2 + i, word)));
        line(&image(8, &sets), "length").split_once(", free ").map(|(_, free)| free.to_string())
    };
    let says = |free: usize, longest: usize| Some(format!("blocks {free}, longest free stretch {longest}"));
    assert_eq!(free(&[]), says(6, 4));
    assert_eq!(free(&[one(0, 5)]), says(5, 2));
    assert_eq!(free(&[one(0, 1)]), says(5, 4));
    assert_eq!(free(&[one(0, 4)]), says(5, 3));
    assert_eq!(free(&[one(0, 1), one(1, 2), one(2, 4), one(3, 5), one(4, 6)]), says(1, 1));
    assert_eq!(free(&[one(0, 1), one(1, 2), one(2, 4), one(3, 5), one(4, 6), one(5, 7)]), says(0, 0));
}

/// v 4, n 4 in 10 to 13; then v 5 and v 7 again, and v 5 once more, over two log blocks.
#[test]
fn overruled_blocks() {
    let mut sets = vec![(1, 0, 9), (1, 2, 0x0002_0004_000A_0004)];
    sets.extend((3..64).map(|slot| (1, slot, one(5, 20))));
    sets.extend([(9, 2, one(7, 21)), (9, 3, one(5, 22))]);
    let image = image(32, &sets);
    let entry = |j: usize| line(&image, &format!("entry {j},"));
    assert_eq!(
        entry(1),
        "entry 1, block 1 word 2: point 0, virtual blocks 4 to 7 in blocks 10 to 13, \
         512 bytes used of the last, overruled 5 7"
    );
    assert!(entry(2).ends_with("overruled all"));
    assert!(entry(62).starts_with("entry 62, block 1 word 63: ") && entry(62).ends_with("overruled all"));
    assert!(entry(63).starts_with("entry 63, block 9 word 2: ") && entry(63).ends_with("overruled none"));
    assert!(entry(64).ends_with("overruled none"));
    assert_eq!(line(&image, "log blocks"), "log blocks 1 9");
    // 11 and 13 are free again, and so is 20: 14 to 20 and 23 to 31.
    assert_eq!(
        line(&image, "length"),
        "length 4096, entries 64, free blocks 25, longest free stretch 9"
    );
}

#[test]
fn sizes() {
    let of = |bytes: usize| fault_of_bytes(&vec![0; bytes]);
    // Broken words: 13 bytes are one word and a part of word 1; 4,101 have 512 whole words.
    assert_eq!(of(13), "block 0 word 1, bytes 13 1.0");
    assert_eq!(of(4_101), "block 8 word 0, bytes 4101 1.0");
    assert_eq!(of(524_287), "block 1023 word 63, bytes 524287 1.0");
    // 260 words are 4 blocks and 4 words; 65 words break 1.2 too.
    assert_eq!(of(8 * 260), "block 4 word 4, words 260 1.1");
    assert_eq!(of(8 * 65), "block 1 word 1, words 65 1.1");
    assert_eq!(of(8), "block 0 word 1, words 1 1.1");
    assert_eq!(of(0), "block 0 word 0, words 0 1.2");
    assert_eq!(of(512 * 3), "block 3 word 0, words 192 1.2");
    for more in [1, 8, 512, 100_000] {
        assert_eq!(of(524_288 + more), "block 1024 word 0, more than 65536 words 1.3");
    }
    let text = inspect(&[0; 8]);
    let expected = "\
refused 1: the image is no multiple of 64 words, or not 4 to 1,024 blocks long
fault at block 0 word 1, words 1
rule 1.1: an image is whole blocks of 64 words
";
    assert_eq!(text, expected);
}

/// After 3 all is read as if the superblock were right.
#[test]
fn the_superblock() {
    let wrong = image(4, &[(0, 0, 0x4D_494C_4B32), (0, 7, 1)]);
    assert_eq!(fault(&wrong), "block 0 word 0, value 0x0000004D494C4B32 3.1");
    assert_eq!(line(&wrong, "length"), "length 0, entries 0, free blocks 2, longest free stretch 2");
    let wrong = image(4, &[(0, 63, 1 << 63), (0, 9, 5)]);
    assert_eq!(fault(&wrong), "block 0 word 9, value 0x0000000000000005 3.2");
    let wrong = image(4, &[(0, 63, 1 << 63), (1, 2, one(0, 2))]);
    assert_eq!(fault(&wrong), "block 0 word 63, value 0x8000000000000000 3.2");
    assert_eq!(line(&wrong, "entry 1"), line(&image(4, &[(1, 2, one(0, 2))]), "entry 1"));
    // Nothing can be read.
    let nothing = says(&vec![0; 256]);
    assert!(nothing.ends_with("\n   0 S...\n\nlog blocks none\nno entries\n\ntable: empty\n"), "{nothing}");
}

#[test]
fn indexes() {
    assert_eq!(fault(&image(4, &[(0, 1, 0)])), "block 0 word 1, value 0x0000000000000000 4.1");
    let outside = image(4, &[(0, 1, 4), (1, 2, one(0, 2))]);
    assert_eq!(fault(&outside), "block 0 word 1, value 0x0000000000000004 4.2");
    assert_eq!(line(&outside, "log blocks"), "log blocks none");
    assert_eq!(line(&outside, "length"), "length 0, entries 0, free blocks 3, longest free stretch 3");
    // All 64 bits count.
    let high = image(4, &[(1, 0, 0x1_0000_0002), (1, 2, one(0, 2))]);
    assert_eq!(fault(&high), "block 1 word 0, value 0x0000000100000002 4.2");
    assert_eq!(line(&high, "log blocks"), "log blocks 1");
    assert!(line(&high, "entry 1").ends_with("overruled none"));
    // A third link, over log blocks that break rules of 6: 4 comes first.
    let third = image(9, &[(1, 0, 5), (5, 0, 3), (5, 1, 1), (3, 0, 9)]);
    assert_eq!(fault(&third), "block 3 word 0, value 0x0000000000000009 4.2");
    assert_eq!(line(&third, "log blocks"), "log blocks 1 5 3");
}

/// Log blocks 1 to 64 in order, all full of one entry, then what the 64th names.
fn long_chain(next: u64) -> Vec<u64> {
    let mut sets = Vec::new();
    for block in 1..=64 {
        sets.push((block, 0, if block < 64 { block as u64 + 1 } else { next }));
        sets.extend((2..64).map(|slot| (block, slot, one(0, 66))));
    }
    image(68, &sets)
}

#[test]
fn chains() {
    // To itself, to the first and to a middle one.
    let own = image(4, &[(1, 0, 1), (1, 2, one(0, 2))]);
    assert_eq!(fault(&own), "block 1 word 0, value 0x0000000000000001 5.1");
    assert_eq!(line(&own, "log blocks"), "log blocks 1");
    assert_eq!(line(&own, "length"), "length 512, entries 1, free blocks 1, longest free stretch 1");
    let first = image(9, &[(1, 0, 5), (5, 0, 3), (3, 0, 1)]);
    assert_eq!(fault(&first), "block 3 word 0, value 0x0000000000000001 5.1");
    let middle = image(9, &[(1, 0, 5), (5, 0, 3), (3, 0, 7), (7, 0, 5)]);
    assert_eq!(fault(&middle), "block 7 word 0, value 0x0000000000000005 5.1");
    assert_eq!(line(&middle, "log blocks"), "log blocks 1 5 3 7");
    // 64 different ones.
    assert!(says(&long_chain(0)).starts_with("opens\nlength 512, entries 3968, free blocks 2, "));
    assert_eq!(fault(&long_chain(65)), "block 64 word 0, value 0x0000000000000041 5.2");
    assert_eq!(fault(&long_chain(68)), "block 64 word 0, value 0x0000000000000044 5.2");
    assert_eq!(fault(&long_chain(u64::MAX)), "block 64 word 0, value 0xFFFFFFFFFFFFFFFF 5.2");
    // 64 different ones, and back.
    assert_eq!(fault(&long_chain(64)), "block 64 word 0, value 0x0000000000000040 5.1");
    assert_eq!(fault(&long_chain(1)), "block 64 word 0, value 0x0000000000000001 5.1");
    assert_eq!(line(&long_chain(65), "length"), line(&long_chain(0), "length"));
    // The 64th index is outside.
    let mut outside = long_chain(0);
    outside[place_of(63, 0)] = 68;
    assert_eq!(fault(&outside), "block 63 word 0, value 0x0000000000000044 4.2");
}

#[test]
fn log_blocks() {
    let full: Vec<_> = (2..64).map(|slot| (1, slot, one(0, 2))).collect();
    let with = |sets: &[(usize, usize, u64)]| image(8, &[full.as_slice(), sets].concat());
    // Word 1, of the first log block that is wrong; the lowest rule.
    let wrong = with(&[(1, 0, 3), (3, 1, 7), (3, 5, one(0, 2))]);
    assert_eq!(fault(&wrong), "block 3 word 1, value 0x0000000000000007 6.1");
    let wrong = with(&[(1, 1, 1 << 40), (1, 0, 3), (3, 1, 7)]);
    assert_eq!(fault(&wrong), "block 1 word 1, value 0x0000010000000000 6.1");
    // The first entry after an empty one; 6.3 holds too, in a block before 6.1.
    let wrong = with(&[(1, 0, 3), (1, 4, 0), (1, 6, 0), (3, 1, 7)]);
    assert_eq!(fault(&wrong), "block 1 word 5, value 0x0002000100020000 6.2");
    assert_eq!(line(&wrong, "length"), "length 512, entries 2, free blocks 4, longest free stretch 4");
    let wrong = with(&[(1, 2, 0)]);
    assert_eq!(fault(&wrong), "block 1 word 3, value 0x0002000100020000 6.2");
    assert_eq!(line(&wrong, "no entries"), "no entries");
    let wrong = image(8, &[(1, 63, 1)]);
    assert_eq!(fault(&wrong), "block 1 word 63, value 0x0000000000000001 6.2");
    // A next index though slot 63 is empty.
    let wrong = with(&[(1, 0, 3), (1, 63, 0), (3, 2, one(1, 4))]);
    assert_eq!(fault(&wrong), "block 1 word 0, value 0x0000000000000003 6.3");
    assert_eq!(line(&wrong, "log blocks"), "log blocks 1 3");
    assert_eq!(line(&wrong, "length"), "length 512, entries 61, free blocks 4, longest free stretch 4");
    // An entry that breaks a rule of 7 before it ends what is read.
    let wrong = with(&[(1, 0, 3), (1, 4, 1), (3, 1, 7)]);
    assert_eq!(fault(&wrong), "block 3 word 1, value 0x0000000000000007 6.1");
    assert_eq!(line(&wrong, "length"), "length 512, entries 2, free blocks 4, longest free stretch 4");
}

/// Each field at its border in an image of 8 blocks: v 0, b 2, n 1, u 512 but for what
/// is named.
#[test]
fn entries() {
    let rule = |word: u64| {
        let image = image(8, &[(1, 2, one(9, 3)), (1, 3, word), (1, 4, 1)]);
        let expected = format!("block 1 word 3, value 0x{word:016X} ");
        fault(&image).strip_prefix(&expected).map(str::to_string)
    };
    let broken = |word: u64, expected: &str| assert_eq!(rule(word).as_deref(), Some(expected), "{word:016X}");
    broken(0x0002_0000_0002_0000, "7.1");
    broken(0x0002_0041_0002_0000, "7.2");
    broken(0x0002_00FF_0002_0000, "7.2");
    broken(0x0000_0001_0002_0000, "7.3");
    broken(0x0002_0101_0002_0000, "7.4");
    broken(0x0003_FF01_0002_0000, "7.4");
    broken(0x0082_0001_0002_0000, "7.5");
    broken(0x8002_0001_0002_0000, "7.5");
    broken(0x0002_0001_0002_0100, "7.6");
    broken(0x0002_0002_0002_00FF, "7.6");
    broken(0x0002_0001_0002_FFFF, "7.6");
    broken(0x0002_0001_0000_0000, "7.7");
    broken(0x0002_0001_0008_0000, "7.8");
    broken(0x0002_0002_0007_0000, "7.8");
    broken(0x0002_0001_FFFF_0000, "7.8");
    // Of several the lowest.
    broken(0x8000_0000_0000_FFFF, "7.1");
    broken(0xFFFF_FFFF_FFFF_FFFF, "7.2");
    broken(0xFF80_0001_0000_FFFF, "7.3");
    broken(0xFF83_FF01_0000_FFFF, "7.4");
    broken(0x0082_0001_0000_0100, "7.5");
    broken(0x0002_0001_0000_0100, "7.6");
    broken(0x0002_0040_0000_0000, "7.7");
    // n 64 is in no image of 8 blocks; 7.2 is about more.
    broken(0x0002_0040_0002_0000, "7.8");
    // The borders themselves are legal: the next word is the fault.
    for word in [0x0002_0001_0007_0000, 0x0002_0002_0006_0000, 0x007E_0001_0002_00FF, 0x0000_0101_0002_0000] {
        let image = image(8, &[(1, 2, word), (1, 3, 1)]);
        assert_eq!(fault(&image), "block 1 word 3, value 0x0000000000000001 7.1", "{word:016X}");
    }
    let most = image(66, &[(1, 2, 0x0002_0040_0002_00C0)]);
    assert!(says(&most).starts_with("opens\nlength 131072, entries 1, free blocks 0, longest free stretch 0\n"));
}

#[test]
fn live_blocks() {
    // Virtual block 3 on the log block; the first entry that covers it is overruled.
    let sets = [(1, 2, one(3, 1)), (1, 3, one(3, 4)), (1, 4, one(3, 1)), (1, 5, one(2, 5))];
    let log_block = image(8, &sets);
    assert_eq!(fault(&log_block), "block 1 word 4, value 0x0002000100010003, virtual block 3 8.1");
    // Block 1 shows as log, and is counted once.
    assert_eq!(line(&log_block, "   0 "), "   0 SL...#..");
    assert_eq!(line(&log_block, "length"), "length 2048, entries 4, free blocks 5, longest free stretch 3");
    assert_eq!(line(&log_block, "3 "), "3 1");
    assert!(line(&log_block, "entry 1,").ends_with("overruled all"));
    // Virtual blocks 2 and 6 share block 5; the entry of 2 is the later one.
    let shared = image(8, &[(1, 2, one(6, 5)), (1, 3, one(2, 5))]);
    assert_eq!(fault(&shared), "block 1 word 2, value 0x0002000100050006, virtual block 6 8.2");
    assert_eq!(line(&shared, "length"), "length 3584, entries 2, free blocks 5, longest free stretch 3");
    // 8.2 at virtual block 4 comes before 8.1 at 7, and the other way round.
    let both = image(8, &[(1, 2, one(7, 1)), (1, 3, one(1, 5)), (1, 4, one(4, 5))]);
    assert_eq!(fault(&both), "block 1 word 4, value 0x0002000100050004, virtual block 4 8.2");
    let both = image(8, &[(1, 2, one(3, 1)), (1, 3, one(1, 5)), (1, 4, one(4, 5))]);
    assert_eq!(fault(&both), "block 1 word 2, value 0x0002000100010003, virtual block 3 8.1");
    // An entry of 3 blocks runs over log block 4; what is overruled does not count.
    let run = image(8, &[(0, 1, 4), (4, 2, 0x0002_0003_0003_0010)]);
    assert_eq!(fault(&run), "block 4 word 2, value 0x0002000300030010, virtual block 17 8.1");
    let overruled = image(8, &[(0, 1, 4), (4, 2, 0x0002_0003_0003_0010), (4, 3, one(17, 6))]);
    assert!(says(&overruled).starts_with("opens\n"));
}

#[test]
fn the_end() {
    // P2: length 514, two bytes of block 3 are used.
    let log = (1, 2, 0x000C_0202_0002_0000);
    assert!(says(&image(4, &[log, (2, 63, u64::MAX), (3, 0, 0xFFFF)])).starts_with("opens\n"));
    let first = image(4, &[log, (3, 0, 0x014443), (3, 63, 1)]);
    assert_eq!(fault(&first), "block 3 word 0, value 0x0000000000014443, byte 2 9.1");
    let later = image(4, &[log, (3, 0, 0x4443), (3, 7, 0x0100_FF00_0000_0000)]);
    assert_eq!(fault(&later), "block 3 word 7, value 0x0100FF0000000000, byte 61 9.1");
    let last = image(4, &[log, (3, 63, 1 << 63)]);
    assert_eq!(fault(&last), "block 3 word 63, value 0x8000000000000000, byte 511 9.1");
    assert_eq!(line(&last, "length"), "length 514, entries 1, free blocks 0, longest free stretch 0");
    // Another entry maps the last virtual block, and its u is less: the length stays.
    let again = image(8, &[log, (1, 3, 0x0000_0101_0005_0001), (5, 0, 0xFF_FF00)]);
    assert_eq!(fault(&again), "block 5 word 0, value 0x0000000000FFFF00, byte 2 9.1");
}

/// Three lines, then what can be read.
#[test]
fn the_lines_of_a_refusal() {
    let text = says(&image(4, &[(1, 2, one(0, 1))]));
    let lines: Vec<&str> = text.lines().collect();
    let expected = [
        "refused 8: two blocks of the file share a block of the image, or one is a log block",
        "fault at block 1 word 2, value 0x0002000100010000, virtual block 0",
        "rule 8.1: no live block is a log block",
        "as far as it can be read:",
        "length 512, entries 1, free blocks 2, longest free stretch 2",
        "",
    ];
    assert_eq!(lines[..6], expected);
}

fn paper(path: &str) -> String {
    let folder = PathBuf::from(env!("CARGO_MANIFEST_DIR"));
    fs::read_to_string(folder.join(path)).expect("a paper")
}

/// The sentences of the header, in their order, the rules of the page in theirs.
#[test]
fn the_sentences_and_the_texts() {
    let header = paper("../../include/store.h");
    let (_, reasons) = header.split_once("\"not refused\",").expect("the reasons");
    for (reason, sentence) in reasons.trim_start().lines().zip(SENTENCES) {
        assert_eq!(reason.trim(), format!("\"{sentence}\","));
    }
    let page = paper("../../docs/INSPECT.md");
    let rows = page.lines().filter(|line| line.starts_with("| ") && line.contains(" | `"));
    let texts: Vec<String> = rows.map(|row| row.split(" | ").take(2).collect::<Vec<_>>().join(" ")).collect();
    let expected: Vec<String> =
        RULES[1..].iter().map(|((number, which), text)| format!("| {number}.{which} `{text}`")).collect();
    assert_eq!(texts, expected);
    assert!(page.contains(&format!("`rule 1.0: {}`", RULES[0].1)));
}

/// The number that opening refuses by, 0 where it opens, and 1 for what is no image.
fn opening(bytes: &[u8]) -> u64 {
    let words: Vec<u64> =
        bytes.chunks_exact(8).map(|part| (0..8).map(|j| u64::from(part[j]) << (8 * j)).sum()).collect();
    if bytes.len() % 8 != 0 || !is_size(words.len()) {
        return 1;
    }
    open(&words, &mut [0; 1024]).map_or_else(|why| why.number(), |_| 0)
}

/// Faults near to the one that is named: another place, value, rule or number.
fn neighbours(named: &Named) -> Vec<Named> {
    let mut list = Vec::new();
    for block in [named.block.wrapping_sub(1), named.block + 1, 0, 1, 2] {
        list.push(Named { block, ..*named });
    }
    for word in [named.word.wrapping_sub(1), named.word + 1, 0, 1, 2, 3, 63] {
        list.push(Named { word, ..*named });
    }
    list.extend((0..=9).map(|which| Named { which, ..*named }));
    list.extend((0..=10).map(|number| Named { number, ..*named }));
    let behind: Vec<Behind> = match named.behind {
        Behind::Bytes(k) => vec![Behind::Bytes(k + 1), Behind::Words(k)],
        Behind::Words(k) => vec![Behind::Words(k + 1), Behind::Bytes(k)],
        Behind::TooMany => vec![Behind::Words(65_536), Behind::Words(65_537)],
        Behind::Value(value) => vec![Behind::Value(value ^ 1), Behind::Byte(value, 0), Behind::Virtual(value, 0)],
        Behind::Virtual(value, x) => {
            let others = [x.wrapping_sub(1), x + 1, 0, 255, 256].map(|x| Behind::Virtual(value, x));
            [others.as_slice(), &[Behind::Value(value)]].concat()
        }
        Behind::Byte(value, k) => {
            let others = [k.wrapping_sub(1), k + 1, 0, 511, 512].map(|k| Behind::Byte(value, k));
            [others.as_slice(), &[Behind::Value(value)]].concat()
        }
    };
    list.extend(behind.into_iter().map(|behind| Named { behind, ..*named }));
    list.retain(|other| other != named);
    list
}

/// The number is opening's, the place is a fault, and no place near to it is the first.
fn look_at(bytes: &[u8], met: &mut Vec<String>) {
    let text = inspect(bytes);
    let named = named_in(&text).expect("a text of an inspector");
    assert_eq!(named.map_or(0, |named| named.number), opening(bytes), "{text}");
    met.extend(spots::met(bytes, named.as_ref()));
    let Some(named) = named else { return };
    assert_eq!(agrees(bytes, &named), Ok(()), "{text}");
    for other in neighbours(&named) {
        assert!(agrees(bytes, &other).is_err(), "{named:?} {other:?}");
    }
}

#[test]
fn the_systematic_images_meet_everything() {
    let mut met = Vec::new();
    for bytes in damage::systematic() {
        look_at(&bytes, &mut met);
    }
    for case in spots::all() {
        let of_opens = case.starts_with("opens, ");
        assert!(of_opens || met.contains(&case), "{case}");
    }
}

#[test]
fn random_images() {
    for seed in [1, 2] {
        let mut met = Vec::new();
        for index in 0..500 {
            look_at(&damage::make(Random::stream(seed, index), index as usize), &mut met);
        }
        for ((number, which), _) in RULES {
            assert!(met.contains(&format!("{number}.{which}")), "seed {seed}: {number}.{which}");
        }
    }
}
