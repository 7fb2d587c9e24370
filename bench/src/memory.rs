//! Bytes copied to their place, nothing else: the limit.

use crate::column::*;
use std::hint::black_box;
use std::time::Duration;

/// The file begins at a cache line.
pub struct Memory {
    memory: Vec<u8>,
    begin: usize,
    writers: usize,
    stored: u64,
}

impl Memory {
    pub fn new() -> Memory {
        let memory = vec![0; APART * MOST_WRITERS + 64];
        let begin = memory.as_ptr().align_offset(64);
        Memory { memory, begin, writers: 0, stored: 0 }
    }

    fn file(&mut self) -> &mut [u8] {
        &mut self.memory[self.begin..]
    }
}

impl Default for Memory {
    fn default() -> Self {
        Memory::new()
    }
}

impl Column for Memory {
    fn name(&self) -> &'static str {
        "memcpy"
    }

    fn promise(&self) -> &'static str {
        "nothing"
    }

    fn fresh(&mut self, writers: usize) {
        self.writers = writers;
        self.stored = 0;
    }

    fn rounds(&mut self, times: usize, text: &mut [u8]) {
        for _ in 0..times {
            alter(text);
            for writer in 0..self.writers {
                let text = black_box(&*text);
                self.file()[APART * writer..][..text.len()].copy_from_slice(text);
            }
        }
        self.stored += (times * self.writers * text.len()) as u64;
    }

    fn bytes_stored(&self) -> Option<u64> {
        Some(self.stored)
    }

    fn keep(&mut self, _entries: usize) {}

    fn open(&mut self, _times: usize) -> Option<Duration> {
        None
    }

    fn read(&mut self, times: usize, buffer: &mut [u8]) {
        for _ in 0..times {
            let buffer = black_box(&mut *buffer);
            buffer.copy_from_slice(&self.file()[..buffer.len()]);
        }
    }
}
