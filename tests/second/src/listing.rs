//! The listing program of document 01.

use crate::open::{open, show};
use crate::refusal::Refusal;

/// "an image of at most 65,536 bytes"
pub const MOST_BYTES: usize = 65_536;

/// What the program prints for these bytes.
pub fn listing(bytes: &[u8]) -> String {
    match list(bytes) {
        Ok(text) => text,
        Err(why) => format!("refused {}\n", why.number()),
    }
}

/// The words of the image, or 1 "for longer input or a broken word".
fn image_of(bytes: &[u8]) -> Result<Vec<u64>, Refusal> {
    if bytes.len() > MOST_BYTES || bytes.len() % 8 != 0 {
        return Err(Refusal::BadSize);
    }
    let word = |part: &[u8]| part.iter().rev().fold(0, |word, &byte| word << 8 | u64::from(byte));
    Ok(bytes.chunks(8).map(word).collect())
}

/// "a header with length, log entries and free blocks, then per live block,
/// ascending, virtual and logical index"
fn list(bytes: &[u8]) -> Result<String, Refusal> {
    let image = image_of(bytes)?;
    let opened = open(&image, &mut [0; 1024])?;
    let mut text = format!(
        "length {} entries {} free {}\n",
        opened.length, opened.entries, opened.free
    );
    for (v, block) in show(&image)?.live() {
        text.push_str(&format!("{v} {block}\n"));
    }
    Ok(text)
}
