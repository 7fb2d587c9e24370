//! Document 02, K9: the small logs, worked out by hand and against the sentence read
//! once more.

use second::image::Entry;
use second::random::Random;
use second::small::{is_of_the_kind, judge, line_of, legal_logs, smalllogs};
use second::smalls;

/// v + 2^16 b + 2^32 n + 2^40 × 512 for the entries that keep the entry's rules: one
/// virtual block on block 1, 2 or 3, or both on 1 and 2 or on 2 and 3. Used bytes 512
/// are bit 49, the 2 in the fourth digit.
const A1: u64 = 0x0002_0001_0001_0000;
const B1: u64 = 0x0002_0001_0001_0001;
const A2: u64 = 0x0002_0001_0002_0000;
const B2: u64 = 0x0002_0001_0002_0001;
const A3: u64 = 0x0002_0001_0003_0000;
const B3: u64 = 0x0002_0001_0003_0001;
const AB12: u64 = 0x0002_0002_0001_0000;
const AB23: u64 = 0x0002_0002_0002_0000;

#[test]
fn one_5_and_27() {
    let logs = legal_logs();
    let count = |length: usize| logs.iter().filter(|log| log.len() == length).count();
    assert_eq!((logs.len(), count(0), count(1), count(2)), (33, 1, 5, 27));
}

/// "shortest first, then by the first entry and then the second as whole numbers,
/// ascending, each once"
#[test]
fn strictly_ascending() {
    for pair in legal_logs().windows(2) {
        let (one, other) = (&pair[0], &pair[1]);
        let first = one.iter().zip(other).find(|(x, y)| x != y);
        let ascends = one.len() < other.len()
            || one.len() == other.len() && first.is_some_and(|(x, y)| x < y);
        assert!(ascends, "{} {}", line_of(one), line_of(other));
    }
}

/// Block 1 is the log block, so an entry alone maps a virtual block to block 2 or 3, or
/// both to 2 and 3. Of two entries the first may name block 1 where the second overrules
/// that.
#[test]
fn the_logs_by_hand() {
    let mut expected: Vec<Vec<u64>> = vec![vec![]];
    expected.extend([A2, B2, A3, B3, AB23].map(|word| vec![word]));
    let seconds: [(u64, &[u64]); 8] = [
        // A virtual block on the log block: the second must cover it.
        (A1, &[A2, A3, AB23]),
        (B1, &[B2, B3, AB23]),
        // Overruled, or the other virtual block on the other block.
        (A2, &[A2, A3, B3, AB23]),
        (B2, &[B2, A3, B3, AB23]),
        (A3, &[A2, B2, A3, AB23]),
        (B3, &[A2, B2, B3, AB23]),
        // Virtual block 0 must leave block 1; 2 is virtual block 1's.
        (AB12, &[A3, AB23]),
        // No block is left: the second names again what lies there.
        (AB23, &[A2, B3, AB23]),
    ];
    for (first, seconds) in seconds {
        expected.extend(seconds.iter().map(|&second| vec![first, second]));
    }
    assert_eq!(legal_logs(), expected);
}

#[test]
fn the_lines() {
    let text = smalllogs();
    assert!(text.ends_with("\n0002000200020000 0002000200020000\n"));
    let first = [
        "",
        "0002000100020000",
        "0002000100020001",
        "0002000100030000",
        "0002000100030001",
        "0002000200020000",
        "0002000100010000 0002000100020000",
        "0002000100010000 0002000100030000",
        "0002000100010000 0002000200020000",
        "0002000100010001 0002000100020001",
    ];
    assert_eq!(text.lines().take(10).collect::<Vec<_>>(), first);
    assert_eq!(text.bytes().filter(|&byte| byte == b'\n').count(), 33);
    assert_eq!(line_of(&[0xABCD_EF01]), "00000000ABCDEF01");
}

/// The sentence once more: live blocks are 2 and 3, each at most once.
fn is_legal(log: &[u64]) -> bool {
    let mut table = [0, 0];
    for entry in log.iter().map(|&word| Entry::unpack(word)) {
        if ![(0, 1), (1, 1), (0, 2)].contains(&(entry.v, entry.n)) || entry.rest != 0 {
            return false;
        }
        if entry.b == 0 || entry.b + entry.n > 4 {
            return false;
        }
        for i in 0..entry.n {
            table[entry.v + i] = entry.b + i;
        }
    }
    !table.contains(&1) && (table[0] != table[1] || table == [0, 0])
}

/// 300 random small logs meet every case, with each of 40 seeds.
#[test]
fn random_small_logs() {
    let all = legal_logs();
    for seed in 0..40 {
        let mut met = Vec::new();
        for index in 0..300 {
            let log = smalls::make(Random::stream(seed, index));
            assert!(log.iter().all(|&word| is_of_the_kind(&Entry::unpack(word))));
            assert_eq!(judge(&log).is_ok(), is_legal(&log), "{}", line_of(&log));
            assert_eq!(all.contains(&log), is_legal(&log), "{}", line_of(&log));
            met.extend(smalls::cases(&log));
        }
        for case in smalls::CASES {
            assert!(met.contains(&case), "seed {seed}: {case}");
        }
    }
}
