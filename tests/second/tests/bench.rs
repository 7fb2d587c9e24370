//! The bench: numbers, words, digests, noise, and the scripts kept beside
//! their output.

mod chains;

use std::fs;
use std::path::PathBuf;

use second::bench::{run, Bench, MOST_INPUT};
use second::digest::*;
use second::words::{number, words};

fn says(script: &str) -> String {
    String::from_utf8(run(script.as_bytes())).expect("plain text")
}

#[test]
fn numbers() {
    assert_eq!(number(b"0"), Some(0));
    assert_eq!(number(b"00000000000000000031"), Some(31));
    assert_eq!(number(b"18446744073709551615"), Some(u64::MAX));
    for bad in [
        "", "18446744073709551616", "99999999999999999999", "000000000000000000000", "-1", "+1",
        "1a", "0x1", "1\t", "1\r", " 1",
    ] {
        assert_eq!(number(bad.as_bytes()), None, "{bad:?}");
    }
}

#[test]
fn words_are_split_at_blanks_alone() {
    assert_eq!(words(b"  set 1   2 "), [b"set".as_slice(), b"1", b"2"]);
    assert_eq!(words(b"set\t1"), [b"set\t1".as_slice()]);
    assert!(words(b"   ").is_empty());
}

#[test]
fn digests() {
    assert_eq!(digest_words(&[]), 1);
    assert_eq!(digest_bytes(&[5]), 65_604);
    assert_eq!(digest_numbers(&[65_535]), 131_134);
    assert_eq!(digest_words(&[0x0004_0003_0002_0001]), digest_numbers(&[1, 2, 3, 4]));
    // (65,600 × 65,599 + 2) mod 4,294,967,291
    assert_eq!(digest_numbers(&[1, 2]), (65_600 * 65_599 + 2) % 4_294_967_291);
}

#[test]
fn noise_is_the_same_everywhere() {
    let mut words = [0; 2];
    noise(&mut words, 1);
    let x: u64 = 1 ^ 1 << 13;
    let x = x ^ x >> 7;
    assert_eq!(words[0], x ^ x << 17);
    let (mut zero, mut named) = ([0; 3], [0; 3]);
    noise(&mut zero, 0);
    noise(&mut named, 88_172_645_463_325_252);
    assert_eq!(zero, named);
}

#[test]
fn lines() {
    assert_eq!(says(""), "");
    assert_eq!(says("\n\n   \n# layout\n  #layout"), "");
    assert_eq!(says("image 256\n set  0 5 \nword 0"), "image 256\nset\nword 5\n");
    assert_eq!(says("image\nimage 1 2\nimage 65601\nimage 65600"), "error\nerror\nerror\nimage 65600\n");
    assert_eq!(says("layout\r\nlayout\topen\nlayout #"), "error\nerror\nerror\n");
    assert_eq!(says("image 4\nnoise 3 18446744073709551615 1\nnoise 4 0 1"), "image 4\nerror\nnoise\n");
}

#[test]
fn long_input() {
    let mut script = b"layout\n#".to_vec();
    script.resize(MOST_INPUT, b'x');
    assert_eq!(run(&script), b"refused 1\n");
    script.push(b'x');
    assert_eq!(run(&script), b"error long\n");
}

/// K2: `shared` writes no next place, and `altershared next V` is an `error`.
#[test]
fn no_next_place() {
    let opened = "image 256\nlayout\nopen 1024\njoin 3\n";
    let asked = "altershared next 1\nshared\naltershared next\nalter 3 next 1";
    let output = says(&format!("{opened}{asked}"));
    let mut map = [0; 16];
    map[0] = 3;
    let mut reports = [0; 32];
    reports[3] = 1;
    let shared = format!("shared 4 8 {} 1 {}", digest_words(&map), digest_words(&reports));
    let lines: Vec<&str> = output.lines().skip(4).collect();
    assert_eq!(lines, ["error", &shared, "error", "error"]);
}

#[test]
fn p2_on_the_bench() {
    let script = "image 256\nlayout\nopen 1024\njoin 3\nbegin 3 510 4 65\nstep 3 500\nshow 3 509 64\nfree";
    let output = says(script);
    let lines: Vec<&str> = output.lines().skip(3).collect();
    let expected =
        ["joined", "begun run 2", "stored x 128", "committed 0", "show 0041484f56", "free 0"];
    assert_eq!(lines, expected);
}

fn kept(path: &str) -> Vec<u8> {
    let folder = PathBuf::from(env!("CARGO_MANIFEST_DIR"));
    fs::read(folder.join(path)).expect("a kept file")
}

#[test]
fn the_gate_script_gives_its_output() {
    let output = run(&kept("../../crates/session/stdin"));
    assert!(output == kept("../../crates/session/stdout"), "the gate's output differs");
}

/// The outputs were worked out by hand.
#[test]
fn the_kept_scripts_give_their_output() {
    for name in ["stretches", "strangers", "reading", "standing", "serving", "ladder"] {
        let output = run(&kept(&format!("tests/{name}.script")));
        let expected = kept(&format!("tests/{name}.expected"));
        let [output, expected] = [output, expected].map(|bytes| String::from_utf8(bytes).unwrap());
        assert_eq!(output, expected, "{name}");
    }
}

#[test]
fn the_gate_script_and_the_kept_ones_meet_everything() {
    let mut bench = Bench::new();
    bench.script(&kept("../../crates/session/stdin"));
    bench.script(&kept("tests/stretches.script"));
    bench.script(&kept("tests/strangers.script"));
    bench.script(&kept("tests/reading.script"));
    bench.script(&kept("tests/standing.script"));
    bench.script(&kept("tests/serving.script"));
    bench.script(&kept("tests/ladder.script"));
    for entered in [64, 65] {
        bench.script(chains::long_chain(80, entered).as_bytes());
        bench.line(b"begin 0 0 1 1");
    }
    assert_eq!(bench.tally.missing(), Vec::<String>::new());
}

#[test]
fn the_sample_gives_its_output() {
    let output = run(&kept("../../examples/milking.script"));
    assert!(output == kept("../../examples/milking.expected"), "milking.expected differs");
}

#[test]
fn any_bytes_are_safe() {
    for seed in 0..40 {
        let kind = seed as usize % second::scripts::KINDS.len();
        let mut script = second::scripts::make(second::random::Random::new(seed), kind);
        script.truncate(40_000);
        run(&script);
    }
}
