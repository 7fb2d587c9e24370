//! Whether a place that an inspector names is a fault: seen from the place alone, with
//! the chain, the log and the file as document 01 defines them, and not searched for.
//! Nothing here comes from `inspect`.

use crate::image::{block_count, byte_of, word_of, BLOCK_BYTES, BLOCK_WORDS, MARK, MOST_LOG_BLOCKS};
use crate::open::{chain_of, is_log_block, length_of, log_of, replay};

/// What a fault's line says behind the place.
#[derive(Clone, Copy, Debug, PartialEq, Eq)]
pub enum Behind {
    Bytes(usize),
    Words(usize),
    /// "more than 65536 words"
    TooMany,
    Value(u64),
    /// The value, and a virtual block.
    Virtual(u64, usize),
    /// The value, and a byte of the block.
    Byte(u64, usize),
}

/// A fault as an inspector names it.
#[derive(Clone, Copy, Debug, PartialEq, Eq)]
pub struct Named {
    pub number: u64,
    /// Which rule of that number.
    pub which: usize,
    pub block: usize,
    pub word: usize,
    pub behind: Behind,
}

/// What the first lines of an inspector's text say: none where the image opens.
pub fn named_in(text: &str) -> Result<Option<Named>, String> {
    if text.lines().next() == Some("opens") {
        return Ok(None);
    }
    fault_in(text).map(Some).ok_or("its first lines name no fault".to_string())
}

fn fault_in(text: &str) -> Option<Named> {
    let mut lines = text.lines();
    let number = lines.next()?.strip_prefix("refused ")?.split_once(": ")?.0;
    let (place, behind) = lines.next()?.strip_prefix("fault at block ")?.split_once(", ")?;
    let (block, word) = place.split_once(" word ")?;
    let (of, which) = lines.next()?.strip_prefix("rule ")?.split_once(": ")?.0.split_once('.')?;
    (of == number).then_some(())?;
    Some(Named {
        number: number.parse().ok()?,
        which: which.parse().ok()?,
        block: block.parse().ok()?,
        word: word.parse().ok()?,
        behind: behind_in(behind)?,
    })
}

fn behind_in(text: &str) -> Option<Behind> {
    if text == "more than 65536 words" {
        return Some(Behind::TooMany);
    }
    let (what, rest) = text.split_once(' ')?;
    match what {
        "bytes" => Some(Behind::Bytes(rest.parse().ok()?)),
        "words" => Some(Behind::Words(rest.parse().ok()?)),
        "value" => {
            let (digits, more) = rest.split_once(", ").unwrap_or((rest, ""));
            let value = u64::from_str_radix(digits.strip_prefix("0x")?, 16).ok()?;
            match (more, more.rsplit_once(' ')) {
                ("", _) => Some(Behind::Value(value)),
                (_, Some(("virtual block", v))) => Some(Behind::Virtual(value, v.parse().ok()?)),
                (_, Some(("byte", byte))) => Some(Behind::Byte(value, byte.parse().ok()?)),
                _ => None,
            }
        }
        _ => None,
    }
}

/// A sentence that has to hold.
fn ask(holds: bool, sentence: &str) -> Result<(), String> {
    if holds {
        Ok(())
    } else {
        Err(format!("not so: {sentence}"))
    }
}

/// Whether the place breaks the rule, and is the first to, as far as the places before it
/// tell. Of the numbers before, opening is asked, not this.
pub fn agrees(bytes: &[u8], named: &Named) -> Result<(), String> {
    if named.number == 1 {
        return agrees_of_size(bytes.len(), named);
    }
    ask(bytes.len() % 512 == 0 && (4..=1_024).contains(&(bytes.len() / 512)), "the size is right")?;
    let word = |part: &[u8]| part.iter().rev().fold(0, |word, &byte| word << 8 | u64::from(byte));
    let image: Vec<u64> = bytes.chunks(8).map(word).collect();
    let Named { number, block, word, .. } = *named;
    ask(block < block_count(&image) && word < BLOCK_WORDS, "the place is in the image")?;
    let value = word_of(&image, block, word);
    match named.behind {
        Behind::Value(said) => ask(said == value && (3..=7).contains(&number), "the word holds the value")?,
        Behind::Virtual(said, _) => ask(said == value && number == 8, "the word holds the value")?,
        Behind::Byte(said, _) => ask(said == value && number == 9, "the word holds the value")?,
        _ => return Err("no value is named".to_string()),
    }
    match number {
        3 => agrees_of_superblock(&image, named, value),
        4 => agrees_of_index(&image, named, value),
        5 => agrees_of_chain(&image, named, value),
        6 => agrees_of_log_block(&image, named, value),
        7 => agrees_of_entry(&image, named, value),
        8 => agrees_of_live_block(&image, named),
        9 => agrees_of_end(&image, named),
        _ => Err(format!("{number} is no number of opening's")),
    }
}

fn agrees_of_size(bytes: usize, named: &Named) -> Result<(), String> {
    ask(named.block <= 1_024 && named.word < BLOCK_WORDS, "such a place can be missing")?;
    let place = BLOCK_WORDS * named.block + named.word;
    match (named.which, named.behind) {
        (0, Behind::Bytes(said)) => {
            ask(said == bytes && bytes <= 524_288, "so many bytes")?;
            ask(8 * place < bytes && bytes < 8 * place + 8, "the word is broken off")
        }
        (1, Behind::Words(said)) => {
            ask(8 * said == bytes && said <= 65_536 && place == said, "so many words, and the next is missing")?;
            ask(named.word != 0, "the block has begun")
        }
        (2, Behind::Words(said)) => {
            ask(8 * said == bytes && place == said, "so many words, and the next is missing")?;
            ask(named.word == 0 && named.block < 4, "a block of the first four is missing whole")
        }
        (3, Behind::TooMany) => {
            ask(bytes > 524_288 && place == 65_536, "there is more than block 1,023")
        }
        _ => Err("no such rule of 1".to_string()),
    }
}

fn agrees_of_superblock(image: &[u64], named: &Named, value: u64) -> Result<(), String> {
    ask(named.block == 0, "the superblock is block 0")?;
    match named.which {
        1 => ask(named.word == 0 && value != MARK, "word 0 is not the mark"),
        2 => {
            ask(named.word >= 2 && value != 0, "a word from 2 on is not 0")?;
            let before = &image[2..named.word];
            ask(image[0] == MARK && before.iter().all(|&word| word == 0), "the words before it are right")
        }
        _ => Err("no such rule of 3".to_string()),
    }
}

/// Where the chain's k-th index stands, from 0 on: in word 1 of block 0, then in word 0 of
/// the block that the one before names. None if one before ends the chain or is outside.
fn index_at(image: &[u64], k: usize) -> Option<(usize, usize)> {
    let blocks = block_count(image) as u64;
    (0..k).try_fold((0, 1), |(block, word), _| {
        let named = word_of(image, block, word);
        (1..blocks).contains(&named).then_some((named as usize, 0))
    })
}

/// Which index of the chain stands there first, from 0 on, of the first 65.
pub fn index_of(image: &[u64], place: (usize, usize)) -> Option<usize> {
    (0..=MOST_LOG_BLOCKS).find(|&k| index_at(image, k) == Some(place))
}

fn agrees_of_index(image: &[u64], named: &Named, value: u64) -> Result<(), String> {
    let place = (named.block, named.word);
    match named.which {
        1 => ask(place == (0, 1) && value == 0, "the first log index is 0"),
        2 => {
            let k = index_of(image, place);
            ask(k.is_some_and(|k| k < MOST_LOG_BLOCKS), "one of the first 64 indexes stands there")?;
            ask(value >= block_count(image) as u64, "it is not below the block count")
        }
        _ => Err("no such rule of 4".to_string()),
    }
}

fn agrees_of_chain(image: &[u64], named: &Named, value: u64) -> Result<(), String> {
    let k = index_of(image, (named.block, named.word)).ok_or("not so: an index of the chain stands there")?;
    ask(k >= 1, "it stands in a log block")?;
    // The log blocks up to that one.
    let met: Vec<usize> = (1..=k).filter_map(|k| index_at(image, k)).map(|(block, _)| block).collect();
    let is_met = |index: u64| met.iter().any(|&block| block as u64 == index);
    let differ = (0..met.len()).all(|i| !met[..i].contains(&met[i]));
    ask(differ, "the log blocks up to it are all different")?;
    match named.which {
        1 => ask(is_met(value), "it names one of them"),
        2 => {
            ask(k == MOST_LOG_BLOCKS, "it is the 64th")?;
            ask(value != 0 && !is_met(value), "it names another")
        }
        _ => Err("no such rule of 5".to_string()),
    }
}

/// The chain of document 01, where it has one.
fn chain_in(image: &[u64]) -> Result<Vec<usize>, String> {
    chain_of(image).map_err(|why| format!("there is no chain: {}", why.number()))
}

fn agrees_of_log_block(image: &[u64], named: &Named, value: u64) -> Result<(), String> {
    let chain = chain_in(image)?;
    let place = chain.iter().position(|&block| block == named.block).ok_or("not so: it is a log block")?;
    ask(chain[..place].iter().all(|&block| is_log_block(image, block)), "the log blocks before it are right")?;
    let slots = &image[BLOCK_WORDS * named.block..][..BLOCK_WORDS];
    if named.which == 1 {
        return ask(named.word == 1 && value != 0, "word 1 is not 0");
    }
    ask(slots[1] == 0, "word 1 is 0")?;
    match named.which {
        2 => {
            ask(named.word >= 3 && value != 0, "an entry stands there")?;
            let before = &slots[2..named.word];
            ask(before.contains(&0), "an empty slot is before it")?;
            let filled = before.iter().take_while(|&&word| word != 0).count();
            ask(before[filled..].iter().all(|&word| word == 0), "no entry before it is after an empty one")
        }
        3 => {
            ask(named.word == 0 && value != 0, "it has a next index")?;
            ask(slots[63] == 0, "it is not full")?;
            ask(slots[2..].windows(2).all(|two| two[0] != 0 || two[1] == 0), "no entry stands after an empty one")
        }
        _ => Err("no such rule of 6".to_string()),
    }
}

/// The rules of 7 that a word breaks, by the weights of its bits.
fn broken_by(entry: u64, blocks: usize) -> Vec<usize> {
    let v = entry % 65_536;
    let b = entry / 65_536 % 65_536;
    let n = entry / (1 << 32) % 256;
    let u = entry / (1 << 40) % 1_024;
    let keeps = [n != 0, n <= 64, u != 0, u <= 512, entry < 1 << 55, v + n <= 256, b != 0, b + n <= blocks as u64];
    (1..=8).filter(|&rule| !keeps[rule - 1]).collect()
}

/// The log of document 01, where it has one.
fn log_in(image: &[u64]) -> Result<Vec<u64>, String> {
    let chain = chain_in(image)?;
    ask(chain.iter().all(|&block| is_log_block(image, block)), "the log blocks are right")?;
    Ok(log_of(image, &chain))
}

/// That all these entries keep the rules of 7.
fn are_legal(image: &[u64], log: &[u64]) -> bool {
    log.iter().all(|&entry| broken_by(entry, block_count(image)).is_empty())
}

/// The words of the log up to that place and those after it, in log order.
fn log_around(image: &[u64], named: &Named) -> Result<(Vec<u64>, Vec<u64>), String> {
    let log = log_in(image)?;
    let chain = chain_in(image)?;
    let place = chain.iter().position(|&block| block == named.block).ok_or("not so: it is in the log")?;
    ask(named.word >= 2 && word_of(image, named.block, named.word) != 0, "an entry stands there")?;
    // All log blocks before are full.
    let (to, after) = log.split_at(62 * place + named.word - 1);
    Ok((to.to_vec(), after.to_vec()))
}

fn agrees_of_entry(image: &[u64], named: &Named, value: u64) -> Result<(), String> {
    let (to, _) = log_around(image, named)?;
    ask(to.last() == Some(&value), "the log has it there")?;
    ask(are_legal(image, &to[..to.len() - 1]), "all entries before it are legal")?;
    ask(broken_by(value, block_count(image)).first() == Some(&named.which), "this is the lowest rule that it breaks")
}

fn agrees_of_live_block(image: &[u64], named: &Named) -> Result<(), String> {
    let Behind::Virtual(value, x) = named.behind else { return Err("no virtual block is named".to_string()) };
    let (to, after) = log_around(image, named)?;
    ask(are_legal(image, &to) && are_legal(image, &after), "all entries are legal")?;
    let covers = |entry: u64| (entry % 65_536..entry % 65_536 + (entry >> 32) % 256).contains(&(x as u64));
    ask(to.last() == Some(&value) && covers(value), "the entry maps the virtual block")?;
    ask(!after.iter().any(|&entry| covers(entry)), "no later entry maps it")?;
    let chain = chain_in(image)?;
    let table = replay(&[to, after].concat());
    let block = table[x];
    // A log block, or a lower virtual block's.
    let is_log = |v: usize| chain.contains(&usize::from(table[v]));
    let is_shared = |v: usize| table[v] != 0 && table[..v].contains(&table[v]);
    match named.which {
        1 => ask(is_log(x), "its block is a log block")?,
        2 => ask(block != 0 && is_shared(x) && !is_log(x), "a lower virtual block has its block too")?,
        _ => return Err("no such rule of 8".to_string()),
    }
    ask(!(0..x).any(|v| is_log(v) || is_shared(v)), "no lower virtual block breaks a rule of 8")
}

fn agrees_of_end(image: &[u64], named: &Named) -> Result<(), String> {
    let Behind::Byte(_, byte) = named.behind else { return Err("no byte is named".to_string()) };
    ask(named.which == 1 && byte < BLOCK_BYTES && byte / 8 == named.word, "the byte is in the word")?;
    let log = log_in(image)?;
    ask(are_legal(image, &log) && !log.is_empty(), "all entries are legal, and there is one")?;
    let length = length_of(&log);
    let last = replay(&log)[(length - 1) / BLOCK_BYTES];
    ask(usize::from(last) == named.block, "it is the last live block")?;
    // The byte's place in the file, were it longer.
    let place = (length - 1) / BLOCK_BYTES * BLOCK_BYTES + byte;
    ask(place >= length && byte_of(image, named.block, byte) != 0, "a byte past the end is not 0")?;
    let end = byte - (place - length);
    ask((end..byte).all(|byte| byte_of(image, named.block, byte) == 0), "the bytes between are 0")
}
