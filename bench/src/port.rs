//! One step of a filling point in plain Rust, with the record by value and
//! behind `&mut`: what the language itself costs. The tests and the word are
//! those of documents 01 and 02.

#[derive(Clone, Copy)]
pub struct Head {
    pub number: u32,
    pub length: u32,
    pub block: u32,
    pub slot: u32,
    pub offset: u32,
    pub size: u32,
    pub run: u32,
    pub position: u32,
}

/// Of the shared record what a fill looks at.
pub struct Shared {
    pub joined: u32,
    pub chain: u32,
    pub reports: [u32; 32],
}

/// One point is joined, and stands in the first log block.
pub fn opened() -> Shared {
    let mut shared = Shared { joined: 1, chain: 1, reports: [0; 32] };
    shared.reports[0] = 1;
    shared
}

/// A point's record, 1.6 KB.
#[derive(Clone, Copy)]
pub struct Record {
    pub head: Head,
    pub table: [u16; 256],
    pub text: [u8; 1024],
}

/// A point that begins a write of a whole block at offset 0.
pub fn begun(text: &[u8; 512]) -> Record {
    let mut record = Record {
        head: Head { number: 0, length: 0, block: 1, slot: 2, offset: 0, size: 512, run: 2, position: 0 },
        table: [0; 256],
        text: [0; 1024],
    };
    record.text[..512].copy_from_slice(text);
    record
}

/// Blocks that the write spans.
fn span(head: &Head) -> u32 {
    (head.offset + head.size - 1) / 512 - head.offset / 512 + 1
}

/// Whether reports and chain length fit an image of that many blocks.
fn shared_fits(shared: &Shared, blocks: u32) -> bool {
    let mut below = true;
    for &report in &shared.reports {
        below &= report < blocks;
    }
    below && (1..=64).contains(&shared.chain)
}

/// Whether head and table fit.
fn fits(head: &Head, table: &[u16; 256], blocks: u32) -> bool {
    let mut below = true;
    for &entry in table {
        below &= entry < blocks as u16;
    }
    below
        && (1..blocks).contains(&head.block)
        && (2..=64).contains(&head.slot)
        && head.length <= 131_072
        && (1..=1_024).contains(&head.size)
        && head.offset <= 131_072 - head.size
        && head.run >= 1
        && head.run + span(head) <= blocks
        && head.position <= 64 * span(head)
}

/// The word that the run gets at the position: of the text, of the mapped
/// block, or of both, byte by byte.
fn word(image: &[u64], head: &Head, table: &[u16; 256], text: &[u8; 1024]) -> u64 {
    let lead = head.offset as usize % 512;
    let end = lead + head.size as usize;
    let position = head.position as usize;
    let at = 8 * position;
    if lead <= at && at + 8 <= end {
        return u64::from_le_bytes(text[at - lead..at - lead + 8].try_into().unwrap());
    }
    let copied = match usize::from(table[head.offset as usize / 512 + position / 64]) {
        0 => 0,
        block => image[64 * block + position % 64],
    };
    if at + 8 <= lead || end <= at {
        return copied;
    }
    let mut bytes = copied.to_le_bytes();
    for (byte, place) in bytes.iter_mut().zip(at..).filter(|(_, place)| (lead..end).contains(place)) {
        *byte = text[place - lead];
    }
    u64::from_le_bytes(bytes)
}

/// One fill, the record handed in and back by value; None where it is refused.
#[inline(never)]
pub fn step_by_value(image: &mut [u64], shared: &Shared, record: Record) -> Option<Record> {
    let mut record = record;
    step_behind_reference(image, shared, &mut record).then_some(record)
}

/// One fill, the record lent; false where it is refused.
#[inline(never)]
pub fn step_by_reference(image: &mut [u64], shared: &Shared, record: &mut Record) -> bool {
    step_behind_reference(image, shared, record)
}

#[inline(always)]
fn step_behind_reference(image: &mut [u64], shared: &Shared, record: &mut Record) -> bool {
    let blocks = (image.len() / 64) as u32;
    let head = record.head;
    let is_joined = shared.joined >> (head.number & 31) & 1 == 1;
    if !shared_fits(shared, blocks) || !fits(&head, &record.table, blocks) || !is_joined || head.position >= 64 * span(&head) {
        return false;
    }
    let value = word(image, &head, &record.table, &record.text);
    image[(64 * head.run + head.position) as usize] = value;
    record.head.position += 1;
    true
}
