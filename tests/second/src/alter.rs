//! The bench's commands that alter records by hand.

use crate::bench::{point, Bench, MOST_32};
use crate::record::Phase;
use crate::words::{at_most, number};

impl Bench {
    /// The command's output; None for a malformed line.
    pub fn alter_command(&mut self, words: &[&[u8]]) -> Option<String> {
        match words {
            [b"alter", p, f, v] => self.alter(point(p)?, f, v)?,
            [b"table", p, i, v] => {
                let (p, i, v) = (point(p)?, at_most(i, 255)?, at_most(v, 65_535)?);
                self.records[p].view.table[i] = v as u16;
            }
            [b"text", p, i, v] => {
                let (p, i, v) = (point(p)?, at_most(i, 1_023)?, at_most(v, 255)?);
                self.records[p].write.text[i] = v as u8;
            }
            [b"altershared", f, v] => self.alter_shared(f, at_most(v, MOST_32)?)?,
            [b"map", i, v] => self.shared.map[at_most(i, 15)?] = number(v)?,
            [b"report", i, v] => self.shared.reports[point(i)?] = at_most(v, MOST_32)?,
            [b"copy", p, q] => {
                let (p, q) = (point(p)?, point(q)?);
                self.records[q] = self.records[p].clone();
                return Some("copied".to_string());
            }
            _ => return None,
        }
        Some("altered".to_string())
    }

    fn alter(&mut self, p: usize, field: &[u8], word: &[u8]) -> Option<()> {
        let value = at_most(word, MOST_32)?;
        let record = &mut self.records[p];
        match field {
            b"number" => record.number = value,
            b"length" => record.view.length = value,
            b"block" => record.view.block = value,
            b"slot" => record.view.slot = value,
            b"offset" => record.write.offset = value,
            b"textlength" => record.write.text_length = value,
            b"run" => record.write.run = value,
            b"position" => record.write.position = value,
            b"zeroing" => record.write.zeroing = value,
            b"retries" => record.write.retries = u16::try_from(value).ok()?,
            b"phase" => record.write.phase = Phase::from_number(value as u64)?,
            _ => return None,
        }
        Some(())
    }

    fn alter_shared(&mut self, field: &[u8], value: usize) -> Option<()> {
        match field {
            b"blocks" => self.shared.blocks = value,
            b"joined" => self.shared.joined = value as u32,
            b"chain" => self.shared.chain = value,
            _ => return None,
        }
        Some(())
    }
}
