//! The inspector of INSPECT.md: what is in an image, and where its first fault is.

use crate::image::*;

/// "at most 1,024 blocks (524,288 bytes)"
pub const MOST_BYTES: usize = 524_288;

/// "its sentence, that of `store_reason`", for the numbers 1 to 9.
pub const SENTENCES: [&str; 9] = [
    "the image is no multiple of 64 words, or not 4 to 1,024 blocks long",
    "the scratch is shorter than 1,024 numbers",
    "the superblock has a wrong mark, or a word after word 1 that is not 0",
    "the first log index is 0, or an index of the log chain lies outside the image",
    "the log chain has not ended after 64 log blocks",
    "a log block has a word 1 that is not 0, an entry after an empty one, or a next index though it is not full",
    "an entry of the log breaks the rules of entries",
    "two blocks of the file share a block of the image, or one is a log block",
    "a byte at or past the file's end in its last block is not 0",
];

/// A rule: a number of opening's, and which of that number's rules.
pub type Rule = (usize, usize);

/// The page's table.
pub const RULES: [(Rule, &str); 24] = [
    ((1, 0), "an image is whole words of 8 bytes"),
    ((1, 1), "an image is whole blocks of 64 words"),
    ((1, 2), "an image has at least 4 blocks"),
    ((1, 3), "an image has at most 1,024 blocks"),
    ((3, 1), "word 0 of the superblock is the mark 0x0000004D494C4B31"),
    ((3, 2), "words 2 to 63 of the superblock are 0"),
    ((4, 1), "the first log index is not 0"),
    ((4, 2), "a log index is below the block count"),
    ((5, 1), "no log block is chained twice"),
    ((5, 2), "at most 64 log blocks are chained"),
    ((6, 1), "word 1 of a log block is 0"),
    ((6, 2), "no entry stands after an empty one"),
    ((6, 3), "only a full log block has a next index"),
    ((7, 1), "an entry maps at least 1 block"),
    ((7, 2), "an entry maps at most 64 blocks"),
    ((7, 3), "an entry's last block has at least 1 used byte"),
    ((7, 4), "an entry's last block has at most 512 used bytes"),
    ((7, 5), "bits 55 to 63 of an entry are 0"),
    ((7, 6), "an entry's virtual blocks are below 256"),
    ((7, 7), "an entry does not map to block 0"),
    ((7, 8), "an entry's blocks are in the image"),
    ((8, 1), "no live block is a log block"),
    ((8, 2), "no two virtual blocks share a live block"),
    ((9, 1), "the last live block is 0 at and past the file's end"),
];

/// What the program prints for these bytes.
pub fn inspect(bytes: &[u8]) -> String {
    let image = match image_of(bytes) {
        Ok(image) => image,
        Err(fault) => return fault.lines(),
    };
    let read = Read::of(&image);
    let head = match fault_of(&image, &read) {
        None => "opens\n".to_string(),
        Some(fault) => fault.lines() + "as far as it can be read:\n",
    };
    head + &read.lines()
}

/// A fault: the rule that is broken, the place, and what its line says behind it.
struct Fault {
    rule: Rule,
    block: usize,
    word: usize,
    behind: String,
}

impl Fault {
    /// The fault of a word that is missing or broken off.
    fn of_size(which: usize, place: usize, behind: String) -> Fault {
        Fault { rule: (1, which), block: place / BLOCK_WORDS, word: place % BLOCK_WORDS, behind }
    }

    /// The fault of a word of the image.
    fn of_word(image: &[u64], rule: Rule, block: usize, word: usize) -> Fault {
        Fault { rule, block, word, behind: format!("value 0x{:016X}", word_of(image, block, word)) }
    }

    /// The same with more behind it.
    fn and(self, more: String) -> Fault {
        Fault { behind: format!("{}, {more}", self.behind), ..self }
    }

    /// The three lines of a refusal.
    fn lines(&self) -> String {
        let (number, which) = self.rule;
        let sentence = SENTENCES[number - 1];
        let text = RULES.iter().find(|(rule, _)| *rule == self.rule).map_or("", |(_, text)| text);
        format!(
            "refused {number}: {sentence}\nfault at block {} word {}, {}\nrule {number}.{which}: {text}\n",
            self.block, self.word, self.behind
        )
    }
}

/// The words of an image of a right size, or a fault of 1.
fn image_of(bytes: &[u8]) -> Result<Vec<u64>, Fault> {
    // "Where it has more than 524,288 bytes"
    if bytes.len() > MOST_BYTES {
        return Err(Fault::of_size(3, MOST_BYTES / 8, "more than 65536 words".to_string()));
    }
    // "where it has no whole number of words": the place of the word that is broken off
    let count = bytes.len() / 8;
    if bytes.len() % 8 != 0 {
        return Err(Fault::of_size(0, count, format!("bytes {}", bytes.len())));
    }
    // "the first word that is missing of the last block"
    if count % BLOCK_WORDS != 0 {
        return Err(Fault::of_size(1, count, format!("words {count}")));
    }
    // "the first word of the first block that is missing"
    if count < 4 * BLOCK_WORDS {
        return Err(Fault::of_size(2, count, format!("words {count}")));
    }
    let word = |part: &[u8]| (0..8).map(|j| u64::from(part[j]) << (8 * j)).sum();
    Ok(bytes.chunks(8).map(word).collect())
}

/// The first fault of an image of a right size: of the lowest number that opening
/// refuses by.
fn fault_of(image: &[u64], read: &Read) -> Option<Fault> {
    superblock_fault(image)
        .or_else(|| index_fault(image))
        .or_else(|| chain_fault(image))
        .or_else(|| read.chain.iter().find_map(|&block| log_block_fault(image, block)))
        .or_else(|| entry_fault(image, &read.chain))
        .or_else(|| live_fault(image, read))
        .or_else(|| end_fault(image, read))
}

/// 3: word 0, then words 2 to 63.
fn superblock_fault(image: &[u64]) -> Option<Fault> {
    if image[0] != MARK {
        return Some(Fault::of_word(image, (3, 1), 0, 0));
    }
    let word = (2..BLOCK_WORDS).find(|&word| image[word] != 0)?;
    Some(Fault::of_word(image, (3, 2), 0, word))
}

/// An index of the chain and where it stands.
struct Link {
    block: usize,
    word: usize,
    index: u64,
}

/// The links of the chain in order, from the superblock's on, as long as the index
/// before is a block's: at most the first 65, the last of them that of the 64th log block.
fn links_of(image: &[u64]) -> Vec<Link> {
    let mut links = vec![Link { block: 0, word: 1, index: image[1] }];
    while links.len() <= MOST_LOG_BLOCKS {
        let index = links[links.len() - 1].index;
        if index == 0 || index >= block_count(image) as u64 {
            break;
        }
        let block = index as usize;
        links.push(Link { block, word: 0, index: word_of(image, block, 0) });
    }
    links
}

/// 4: of the first 64 indexes.
fn index_fault(image: &[u64]) -> Option<Fault> {
    if image[1] == 0 {
        return Some(Fault::of_word(image, (4, 1), 0, 1));
    }
    let links = links_of(image);
    let is_outside = |link: &&Link| link.index >= block_count(image) as u64;
    let link = links.iter().take(MOST_LOG_BLOCKS).find(is_outside)?;
    Some(Fault::of_word(image, (4, 2), link.block, link.word))
}

/// 5: of a chain that has not ended after 64 log blocks.
fn chain_fault(image: &[u64]) -> Option<Fault> {
    let links = links_of(image);
    let last = links.get(MOST_LOG_BLOCKS).filter(|link| link.index != 0)?;
    // "whose next index is that of a log block that stands before it in the chain, or its own"
    let leads_back = |i: &usize| links[1..=*i].iter().any(|met| met.block as u64 == links[*i].index);
    match (1..links.len()).find(leads_back) {
        Some(i) => Some(Fault::of_word(image, (5, 1), links[i].block, 0)),
        None => Some(Fault::of_word(image, (5, 2), last.block, 0)),
    }
}

/// 6, of one log block: "of several rules the lowest".
fn log_block_fault(image: &[u64], block: usize) -> Option<Fault> {
    if word_of(image, block, 1) != 0 {
        return Some(Fault::of_word(image, (6, 1), block, 1));
    }
    // A log block without an empty slot is full.
    let is_empty = |slot: &usize| word_of(image, block, *slot) == 0;
    let empty = (FIRST_SLOT..END_SLOT).find(is_empty)?;
    if let Some(slot) = (empty..END_SLOT).find(|slot| !is_empty(slot)) {
        return Some(Fault::of_word(image, (6, 2), block, slot));
    }
    if word_of(image, block, 0) != 0 {
        return Some(Fault::of_word(image, (6, 3), block, 0));
    }
    None
}

/// Which rule of 7 an entry breaks, the lowest.
fn broken_rule(entry: &Entry, blocks: usize) -> Option<usize> {
    let broken = [
        entry.n < 1,
        entry.n > 64,
        entry.u < 1,
        entry.u > BLOCK_BYTES,
        entry.rest != 0,
        entry.v + entry.n > FILE_BLOCKS,
        entry.b < 1,
        entry.b + entry.n > blocks,
    ];
    broken.iter().position(|&broken| broken).map(|i| i + 1)
}

/// All slots of these log blocks in order: block, slot and word.
fn slots_of<'a>(image: &'a [u64], chain: &'a [usize]) -> impl Iterator<Item = (usize, usize, u64)> + 'a {
    let slots = move |&block: &usize| (FIRST_SLOT..END_SLOT).map(move |slot| (block, slot));
    chain.iter().flat_map(slots).map(|(block, slot)| (block, slot, word_of(image, block, slot)))
}

/// 7: "the first entry, in log order", of a chain that keeps the rules of 6.
fn entry_fault(image: &[u64], chain: &[usize]) -> Option<Fault> {
    let blocks = block_count(image);
    let mut filled = slots_of(image, chain).filter(|&(_, _, word)| word != 0);
    filled.find_map(|(block, slot, word)| {
        let which = broken_rule(&Entry::unpack(word), blocks)?;
        Some(Fault::of_word(image, (7, which), block, slot))
    })
}

/// 8: of the lowest virtual block that is mapped to a log block, or to a block that a
/// lower one is mapped to.
fn live_fault(image: &[u64], read: &Read) -> Option<Fault> {
    let wrong = |v: usize| match read.table[v] {
        0 => None,
        block if read.chain.contains(&block) => Some((v, 1)),
        block if read.table[..v].contains(&block) => Some((v, 2)),
        _ => None,
    };
    let (v, which) = (0..FILE_BLOCKS).find_map(wrong)?;
    // "the last in the log that covers it"
    let placed = read.entries.iter().rev().find(|placed| placed.entry.covers(v))?;
    Some(Fault::of_word(image, (8, which), placed.block, placed.slot).and(format!("virtual block {v}")))
}

/// 9: the first byte that is not 0.
fn end_fault(image: &[u64], read: &Read) -> Option<Fault> {
    let last = read.length.checked_sub(1)?;
    let block = read.table[last / BLOCK_BYTES];
    let byte = (last % BLOCK_BYTES + 1..BLOCK_BYTES).find(|&byte| byte_of(image, block, byte) != 0)?;
    Some(Fault::of_word(image, (9, 1), block, byte / 8).and(format!("byte {byte}")))
}

/// A log entry and where it stands.
struct Placed {
    block: usize,
    slot: usize,
    entry: Entry,
}

/// "What can be read" of an image of a right size.
struct Read {
    blocks: usize,
    chain: Vec<usize>,
    entries: Vec<Placed>,
    /// The block of each virtual block, 0 where nothing is mapped.
    table: [usize; FILE_BLOCKS],
    length: usize,
}

impl Read {
    fn of(image: &[u64]) -> Read {
        let blocks = block_count(image);
        let chain = chain_read(image);
        let placed = |(block, slot, word)| Placed { block, slot, entry: Entry::unpack(word) };
        // "up to the first word that is no legal entry; an empty word is none"
        let is_legal = |placed: &Placed| broken_rule(&placed.entry, blocks).is_none();
        let entries: Vec<Placed> = slots_of(image, &chain).map(placed).take_while(is_legal).collect();
        let mut table = [0; FILE_BLOCKS];
        let mut length = 0;
        for Placed { entry, .. } in &entries {
            for i in 0..entry.n {
                table[entry.v + i] = entry.b + i;
            }
            length = length.max(entry.end());
        }
        Read { blocks, chain, entries, table, length }
    }

    /// The characters of the map, one a block.
    fn map(&self) -> Vec<char> {
        let mark = |block: usize| match block {
            0 => 'S',
            _ if self.chain.contains(&block) => 'L',
            _ if self.table.contains(&block) => '#',
            _ => '.',
        };
        (0..self.blocks).map(mark).collect()
    }

    /// The virtual blocks of entry j, from 0 on, that a later entry maps again.
    fn overruled(&self, j: usize) -> Vec<usize> {
        let Entry { v, n, .. } = self.entries[j].entry;
        let is_again = |v: &usize| self.entries[j + 1..].iter().any(|later| later.entry.covers(*v));
        (v..v + n).filter(is_again).collect()
    }

    /// Lines 2 to 5.
    fn lines(&self) -> String {
        self.header_lines() + &self.map_lines() + &self.log_lines() + &self.table_lines()
    }

    fn header_lines(&self) -> String {
        let map = self.map();
        let free = map.iter().filter(|&&mark| mark == '.').count();
        let stretches = map.split(|&mark| mark != '.');
        let longest = stretches.map(|stretch| stretch.len()).max().unwrap_or(0);
        let (length, entries) = (self.length, self.entries.len());
        format!("length {length}, entries {entries}, free blocks {free}, longest free stretch {longest}\n")
    }

    fn map_lines(&self) -> String {
        let mut text = format!("\nblocks {}: S superblock, L log, # live, . free\n", self.blocks);
        for (i, row) in self.map().chunks(64).enumerate() {
            let marks: String = row.iter().collect();
            text += &format!("{:4} {marks}\n", 64 * i);
        }
        text
    }

    fn log_lines(&self) -> String {
        let chain: String = self.chain.iter().map(|block| format!(" {block}")).collect();
        let mut text = format!("\nlog blocks{}\n", if chain.is_empty() { " none" } else { &chain });
        if self.entries.is_empty() {
            text += "no entries\n";
        }
        for j in 0..self.entries.len() {
            text += &self.entry_line(j);
        }
        text
    }

    fn entry_line(&self, j: usize) -> String {
        let Placed { block, slot, entry } = &self.entries[j];
        let Entry { v, b, n, u, point, .. } = *entry;
        let mapped = match n {
            1 => format!("virtual block {v} in block {b}"),
            _ => format!("virtual blocks {v} to {} in blocks {b} to {}", v + n - 1, b + n - 1),
        };
        let overruled = self.overruled(j);
        let which = match overruled.len() {
            0 => "none".to_string(),
            count if count == n => "all".to_string(),
            _ => overruled.iter().map(usize::to_string).collect::<Vec<_>>().join(" "),
        };
        let place = format!("entry {}, block {block} word {slot}", j + 1);
        format!("{place}: point {point}, {mapped}, {u} bytes used of the last, overruled {which}\n")
    }

    fn table_lines(&self) -> String {
        let mapped = |v: &usize| self.table[*v] != 0;
        let rows: Vec<usize> = (0..FILE_BLOCKS).filter(mapped).collect();
        if rows.is_empty() {
            return "\ntable: empty\n".to_string();
        }
        let mut text = "\ntable: virtual block, block\n".to_string();
        for v in rows {
            text += &format!("{v} {}\n", self.table[v]);
        }
        text
    }
}

/// "from word 1 of block 0 on by next indexes, up to an index that is 0, not below the
/// block count, or that of a log block read already; at most 64"
fn chain_read(image: &[u64]) -> Vec<usize> {
    let mut chain: Vec<usize> = Vec::new();
    let mut index = image[1];
    while index != 0 && index < block_count(image) as u64 && chain.len() < MOST_LOG_BLOCKS {
        let block = index as usize;
        if chain.contains(&block) {
            break;
        }
        chain.push(block);
        index = word_of(image, block, 0);
    }
    chain
}
