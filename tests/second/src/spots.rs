//! What a comparison of inspectors has to meet: each rule, and where it was broken.

use crate::image::*;
use crate::inspect::RULES;
use crate::open::{chain_of, length_of, log_of, show, Shown};
use crate::place::{index_of, Behind, Named};

const OPENS: [&str; 11] = [
    "opens",
    "opens, 4 blocks",
    "opens, 1,024 blocks",
    "opens, no entries",
    "opens, no free block",
    "opens, 64 log blocks",
    "opens, last log block full",
    "opens, last log block empty behind others",
    "opens, an entry of 64 blocks",
    "opens, some of an entry overruled",
    "opens, ends inside a block",
];

/// What shall be met.
pub fn all() -> Vec<String> {
    let mut all = OPENS.map(str::to_string).to_vec();
    for ((number, which), _) in RULES {
        let rule = format!("{number}.{which}");
        all.push(rule.clone());
        all.extend(spots_of(number, which).iter().map(|spot| format!("{rule} {spot}")));
    }
    all
}

/// The spots of a rule.
fn spots_of(number: usize, which: usize) -> Vec<&'static str> {
    match (number, which) {
        (4, 2) => vec!["at the superblock", "at a middle index", "at the 64th index"],
        (5, 1) => vec![
            "in the first log block",
            "in a middle log block",
            "in the 64th log block",
            "to itself",
            "to the first",
            "to a middle one",
        ],
        (5, 2) => vec!["to another block", "to outside"],
        // The block with an index too early is not the last one: that comes behind it.
        (6, 3) => vec!["in the first log block", "in a middle log block", "in the last log block but one"],
        (6, _) => vec!["in the first log block", "in a middle log block", "in the last log block"],
        (7, _) => vec![
            "in the first log block",
            "in a middle log block",
            "in the last log block",
            "in the first slot",
            "in a middle slot",
            "in the last slot",
        ],
        (8, _) => vec![
            "in the first log block",
            "in a middle log block",
            "in the last log block",
            "in the first slot",
            "in a middle slot",
            "in the last slot",
            "of a low virtual block",
            "of a middle virtual block",
            "of a high virtual block",
            "with an earlier entry over it",
        ],
        (9, _) => vec!["at the first byte", "at a middle byte", "at the last byte"],
        _ => vec![],
    }
}

/// Those that this image is one of, with the fault that was named in it.
pub fn met(bytes: &[u8], named: Option<&Named>) -> Vec<String> {
    let word = |part: &[u8]| part.iter().rev().fold(0, |word, &byte| word << 8 | u64::from(byte));
    let image: Vec<u64> = bytes.chunks(8).map(word).collect();
    let Some(named) = named else {
        return show(&image).map_or(Vec::new(), |shown| met_open(&image, &shown));
    };
    let rule = format!("{}.{}", named.number, named.which);
    let spots = match named.number {
        4 | 5 => link_spots(&image, named),
        6..=8 => log_spots(&image, named),
        9 => end_spots(&image, named),
        _ => Vec::new(),
    };
    let mut met: Vec<String> = spots.iter().map(|spot| format!("{rule} {spot}")).collect();
    met.push(rule);
    met
}

/// The names of those that hold.
fn holding(named: &[(bool, &'static str)]) -> Vec<&'static str> {
    named.iter().filter(|(holds, _)| *holds).map(|&(_, name)| name).collect()
}

fn met_open(image: &[u64], shown: &Shown) -> Vec<String> {
    let blocks = block_count(image);
    let entries: Vec<Entry> = shown.log.iter().map(|&word| Entry::unpack(word)).collect();
    let live = shown.live().len();
    let log_blocks = shown.chain.len();
    let has_live = |entry: &Entry| (0..entry.n).any(|i| usize::from(shown.table[entry.v + i]) == entry.b + i);
    let has_other = |entry: &Entry| (0..entry.n).any(|i| usize::from(shown.table[entry.v + i]) != entry.b + i);
    let holds = [
        true,
        blocks == 4,
        blocks == MOST_BLOCKS,
        entries.is_empty(),
        1 + log_blocks + live == blocks,
        log_blocks == MOST_LOG_BLOCKS,
        entries.len() == 62 * log_blocks,
        log_blocks > 1 && entries.len() == 62 * (log_blocks - 1),
        entries.iter().any(|entry| entry.n == 64),
        entries.iter().any(|entry| has_live(entry) && has_other(entry)),
        shown.length % BLOCK_BYTES != 0,
    ];
    OPENS.iter().zip(holds).filter(|(_, holds)| *holds).map(|(name, _)| name.to_string()).collect()
}

fn link_spots(image: &[u64], named: &Named) -> Vec<&'static str> {
    let Some(k) = index_of(image, (named.block, named.word)) else { return Vec::new() };
    let value = word_of(image, named.block, named.word);
    let own = value == named.block as u64;
    match (named.number, named.which) {
        (4, 2) => holding(&[
            (k == 0, "at the superblock"),
            (k > 0 && k < 63, "at a middle index"),
            (k == 63, "at the 64th index"),
        ]),
        (5, 1) => holding(&[
            (k == 1, "in the first log block"),
            (k > 1 && k < 64, "in a middle log block"),
            (k == 64, "in the 64th log block"),
            (own, "to itself"),
            (!own && value == image[1], "to the first"),
            (!own && value != image[1], "to a middle one"),
        ]),
        (5, 2) => {
            let is_outside = value >= block_count(image) as u64;
            holding(&[(!is_outside, "to another block"), (is_outside, "to outside")])
        }
        _ => Vec::new(),
    }
}

fn log_spots(image: &[u64], named: &Named) -> Vec<&'static str> {
    let chain = chain_of(image).unwrap_or_default();
    let Some(i) = chain.iter().position(|&block| block == named.block) else { return Vec::new() };
    let mut spots = holding(&[
        (i == 0 && chain.len() > 1, "in the first log block"),
        (i > 0 && i + 1 < chain.len(), "in a middle log block"),
        (i > 0 && i + 1 == chain.len(), "in the last log block"),
        (i > 0 && i + 2 == chain.len() && (named.number, named.which) == (6, 3), "in the last log block but one"),
    ]);
    if named.number >= 7 {
        spots.extend(holding(&[
            (named.word == FIRST_SLOT, "in the first slot"),
            (named.word > FIRST_SLOT && named.word + 1 < END_SLOT, "in a middle slot"),
            (named.word + 1 == END_SLOT, "in the last slot"),
        ]));
    }
    if let Behind::Virtual(_, x) = named.behind {
        // Entries before: all log blocks before are full.
        let log = log_of(image, &chain);
        let before = log.get(..62 * i + named.word.saturating_sub(FIRST_SLOT)).unwrap_or(&[]);
        spots.extend(holding(&[
            (x < 4, "of a low virtual block"),
            ((4..252).contains(&x), "of a middle virtual block"),
            (x >= 252, "of a high virtual block"),
            (before.iter().any(|&word| Entry::unpack(word).covers(x)), "with an earlier entry over it"),
        ]));
    }
    spots
}

fn end_spots(image: &[u64], named: &Named) -> Vec<&'static str> {
    let Behind::Byte(_, byte) = named.behind else { return Vec::new() };
    let chain = chain_of(image).unwrap_or_default();
    let end = length_of(&log_of(image, &chain)) % BLOCK_BYTES;
    holding(&[
        (byte == end, "at the first byte"),
        (byte > end && byte < 511, "at a middle byte"),
        (byte == 511, "at the last byte"),
    ])
}
