//! Lines with every word at or past its range, and malformed lines.

use crate::bench::MOST_INPUT;
use crate::maker::Maker;
use crate::random::Random;

/// Stands for the greatest place in the image.
const PLACE: u64 = u64::MAX - 1;

/// Each command with the greatest value of each of its numbers; u64::MAX where
/// any number is allowed, 0 for a field's name.
const SHAPES: [(&str, &[u64]); 29] = [
    ("image", &[65_600]),
    ("noise", &[PLACE, PLACE, u64::MAX]),
    ("set", &[PLACE, u64::MAX]),
    ("word", &[PLACE]),
    ("layout", &[]),
    ("open", &[2_048]),
    ("cut", &[]),
    ("join", &[31]),
    ("joinas", &[0xFFFF_FFFF]),
    ("begin", &[31, 0xFFFF_FFFF, 1_100, 255]),
    ("beginread", &[31, 0xFFFF_FFFF, 1_100]),
    ("serve", &[40, 40]),
    ("step", &[31, 100_000]),
    ("leave", &[31]),
    ("read", &[31, 0xFFFF_FFFF, 4_096]),
    ("show", &[31, 0xFFFF_FFFF, 64]),
    ("locate", &[31, 0xFFFF_FFFF]),
    ("view", &[31, 0xFFFF_FFFF]),
    ("record", &[31]),
    ("shared", &[]),
    ("alter", &[31, 0, 0xFFFF_FFFF]),
    ("table", &[31, 255, 65_535]),
    ("text", &[31, 1_023, 255]),
    ("altershared", &[0, 0xFFFF_FFFF]),
    ("map", &[15, u64::MAX]),
    ("report", &[31, 0xFFFF_FFFF]),
    ("copy", &[31, 31]),
    ("digest", &[]),
    ("free", &[]),
];

/// Fields of both records, and words that are none; `next` is none since K2, `passed`
/// since K4.
const FIELDS: [&str; 20] = [
    "number", "length", "block", "slot", "passed", "offset", "textlength", "run", "position",
    "zeroing", "retries", "phase", "blocks", "joined", "next", "chain", "table", "Number", "report",
    "",
];

/// Words that are no numbers, or numbers at the border of 2^64 and 20 digits.
const ODD: [&str; 30] = [
    "18446744073709551615",
    "18446744073709551616",
    "18446744073709551617",
    "28446744073709551615",
    "99999999999999999999",
    "00000000000000000000",
    "00000000000000000001",
    "00000000000000000031",
    "000000000000000000000",
    "000000000000000000001",
    "100000000000000000000",
    "4294967295",
    "4294967296",
    "-1",
    "+1",
    "1.",
    "1a",
    "a",
    "0x1",
    "1_0",
    "1,0",
    "1\t",
    "\t1",
    "\t",
    "1\r",
    "\u{b2}",
    "\u{661}",
    "1\0",
    "#1",
    "#",
];

fn number_word(random: &mut Random, most: u64) -> String {
    match random.below(10) {
        0 => most.to_string(),
        1 => (u128::from(most) + 1).to_string(),
        2 => most.saturating_sub(1).to_string(),
        3 => format!("{:020}", random.any() % 40),
        4 => format!("{:0width$}", random.any() % 32, width = random.between(1, 22)),
        5 => random.pick(&ODD).to_string(),
        _ => (random.any() % most.saturating_add(1).max(1)).to_string(),
    }
}

/// The greatest value to be used for a number of a command.
fn greatest(random: &mut Random, command: &str, most: u64, places: usize) -> u64 {
    match (command, most) {
        ("image", _) if !random.once_in(6) => 700,
        (_, PLACE) => (places as u64).saturating_sub(1),
        _ => most,
    }
}

/// The words of a `serve` line: few points and writes, or up to the greatest counts and
/// one more, then in as many digits as there may be. One word of many is out of its range
/// at most.
fn serve_words(random: &mut Random) -> Vec<String> {
    let most = *random.pick(&[1, 2, 3, 4, 40, 41]);
    let (n, m) = (random.below(most + 1), random.below(most + 1));
    let m = if random.once_in(2) { n } else { m };
    let mut mosts = vec![31; n];
    mosts.extend([0xFFFF_FFFF, 1_100, 255].repeat(m));
    let odd = random.below(2 * mosts.len() + 1);
    let width = if n + m > 60 { 20 } else { 1 };
    let mut words = vec!["serve".to_string(), n.to_string(), m.to_string()];
    for (i, &most) in mosts.iter().enumerate() {
        let small = format!("{:0width$}", random.any() % most.min(600));
        words.push(if i == odd { number_word(random, most) } else { small });
    }
    words
}

fn good_words(random: &mut Random, places: usize) -> Vec<String> {
    let (command, mosts) = random.pick(&SHAPES);
    if *command == "serve" && !random.once_in(4) {
        return serve_words(random);
    }
    let mut words = vec![command.to_string()];
    for (i, &most) in mosts.iter().enumerate() {
        let is_field = (*command == "alter" && i == 1) || (*command == "altershared" && i == 0);
        words.push(if is_field {
            random.pick(&FIELDS).to_string()
        } else if *command == "alter" && i == 2 {
            let most = *random.pick(&[5, 6, 7, 64, 65_535, 65_536, 0xFFFF_FFFF, 0x1_0000_0000]);
            number_word(random, most)
        } else {
            let most = greatest(random, command, most, places);
            number_word(random, most)
        });
    }
    words
}

/// A line for an image of that many words, whole or malformed in one of many
/// ways.
pub fn a_line(random: &mut Random, places: usize) -> Vec<u8> {
    let mut words = good_words(random, places);
    let at = random.below(words.len());
    match random.below(14) {
        0 => drop(words.remove(at)),
        1 => words.insert(at, random.pick(&ODD).to_string()),
        2 => words.push("0".to_string()),
        3 => words[at] = random.pick(&ODD).to_string(),
        4 => words[0] = words[0].to_uppercase(),
        5 => words[0].push('x'),
        6 => drop(words[0].pop()),
        _ => {}
    }
    let mut line = join_words(random, &words).into_bytes();
    match random.below(40) {
        0 => line.push(b'\r'),
        1 => line.insert(0, b'\t'),
        2 => line.push(0xFF),
        3 => line.insert(0, b'#'),
        4 => line = b" # a remark".to_vec(),
        5 => line = b"   ".to_vec(),
        6 => line = Vec::new(),
        7 => line = vec![b' '; random.between(1, 300)],
        8 => line = random_bytes(random),
        9 => line.extend(b" # no remark"),
        // "The next place goes from the shared record": no field any more.
        10 => line = format!("altershared next {}", random.below(8)).into_bytes(),
        // "The log blocks passed go from the point's record": neither.
        11 => line = format!("alter {} passed {}", random.below(32), random.below(66)).into_bytes(),
        _ => {}
    }
    line
}

fn join_words(random: &mut Random, words: &[String]) -> String {
    let blank = match random.below(12) {
        0 => "  ",
        1 => "      ",
        2 => "\t",
        3 => " \t ",
        _ => " ",
    };
    let line = words.join(blank);
    match random.below(8) {
        0 => format!(" {line}"),
        1 => format!("{line} "),
        2 => format!("   {line}    "),
        _ => line,
    }
}

fn random_bytes(random: &mut Random) -> Vec<u8> {
    let count = random.below(60);
    (0..count).map(|_| random.below(256) as u8).map(|b| if b == b'\n' { b' ' } else { b }).collect()
}

/// The script with no line feed at its end, or filled up to the greatest
/// length, or one byte longer.
pub fn with_an_end(mut maker: Maker) -> Vec<u8> {
    let mut script = maker.script;
    match maker.random.below(5) {
        0 => script.extend(b"shared"),
        1 => fill_up(&mut script, MOST_INPUT),
        2 if maker.random.once_in(2) => fill_up(&mut script, MOST_INPUT + 1),
        3 if maker.random.once_in(4) => script = Vec::new(),
        _ => {}
    }
    script
}

/// A remark up to that length, with a command at the very end.
fn fill_up(script: &mut Vec<u8>, length: usize) {
    let end = b"\nshared";
    if script.len() + 1 + end.len() > length {
        script.truncate(length - 1 - end.len());
    }
    script.push(b'#');
    script.resize(length - end.len(), b'x');
    script.extend(end);
}
