//! Document 01: the recovery rule, "a book fed, in order, the calls before the
//! cut and their answers".

use crate::refusal::Refusal;
use crate::step::Answer;

/// "It holds a file, first F, and a note per point, first empty."
pub struct Book {
    pub file: Vec<u8>,
    notes: Vec<Option<(usize, Vec<u8>)>>,
}

impl Book {
    pub fn new(file: Vec<u8>) -> Book {
        Book { file, notes: vec![None; 32] }
    }

    /// "A beginning not refused notes offset and text."
    pub fn begun(&mut self, point: usize, offset: usize, text: &[u8]) {
        self.notes[point] = Some((offset, text.to_vec()));
    }

    /// A step's answer: Committed, 20 and 21 count; "all else, other refusals
    /// too, changes nothing". Reads are passed over.
    pub fn stepped(&mut self, point: usize, answer: &Answer) {
        match answer {
            Answer::Committed(_) => self.committed(point),
            Answer::Refused(Refusal::LogFull | Refusal::NoLogBlock) => self.notes[point] = None,
            _ => {}
        }
    }

    /// "Committed pads the file with zeros to the noted write's end, if
    /// shorter, puts the text over the bytes from the offset on and empties
    /// the note"
    fn committed(&mut self, point: usize) {
        if let Some((offset, text)) = self.notes[point].take() {
            let end = offset + text.len();
            if self.file.len() < end {
                self.file.resize(end, 0);
            }
            self.file[offset..end].copy_from_slice(&text);
        }
    }

    /// The file's byte, 0 past its end.
    pub fn byte(&self, place: usize) -> u8 {
        self.file.get(place).copied().unwrap_or(0)
    }

    /// "a leaving not refused only empties it"
    pub fn left(&mut self, point: usize) {
        self.notes[point] = None;
    }
}
