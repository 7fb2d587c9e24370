//! libpmemlog: one append a committed write; it does not overwrite.

use crate::column::*;
use crate::measure::timed;
use std::ffi::{c_char, c_int, c_void, CString};
use std::fs;
use std::path::{Path, PathBuf};
use std::ptr::{copy_nonoverlapping, null_mut};
use std::time::Duration;

/// Enough for 3,968 appends of 1,024 bytes.
const POOL_SIZE: usize = 8 << 20;

type Handle = *mut c_void;
type Chunk = extern "C" fn(bytes: *const u8, length: usize, argument: *mut u8) -> c_int;

extern "C" {
    fn pmemlog_create(path: *const c_char, size: usize, mode: u32) -> Handle;
    fn pmemlog_open(path: *const c_char) -> Handle;
    fn pmemlog_close(log: Handle);
    fn pmemlog_rewind(log: Handle);
    fn pmemlog_append(log: Handle, bytes: *const u8, length: usize) -> c_int;
    fn pmemlog_walk(log: Handle, chunk: usize, each: Chunk, argument: *mut u8);
}

pub struct Pmemlog {
    path: PathBuf,
    log: Handle,
    writers: usize,
}

/// Copies the first chunk and ends the walk.
extern "C" fn copy_first(bytes: *const u8, length: usize, buffer: *mut u8) -> c_int {
    // SAFETY: the buffer is as long as the walk's chunk.
    unsafe { copy_nonoverlapping(bytes, buffer, length) };
    0
}

impl Pmemlog {
    pub fn new(folder: &Path) -> Pmemlog {
        Pmemlog { path: folder.join("pmemlog"), log: null_mut(), writers: 0 }
    }

    fn path(&self) -> CString {
        CString::new(self.path.to_str().unwrap()).unwrap()
    }

    fn take(&mut self, log: Handle) {
        assert!(!log.is_null(), "libpmemlog refuses");
        self.log = log;
    }

    fn close(&mut self) {
        if !self.log.is_null() {
            // SAFETY: here and below, a log that is open.
            unsafe { pmemlog_close(self.log) };
            self.log = null_mut();
        }
    }

    fn append(&self, text: &[u8]) {
        assert_eq!(unsafe { pmemlog_append(self.log, text.as_ptr(), text.len()) }, 0);
    }
}

impl Column for Pmemlog {
    fn name(&self) -> &'static str {
        "libpmemlog"
    }

    fn promise(&self) -> &'static str {
        "appends whole, in order"
    }

    /// An open log is emptied.
    fn fresh(&mut self, writers: usize) {
        if self.log.is_null() {
            let _ = fs::remove_file(&self.path);
            let log = unsafe { pmemlog_create(self.path().as_ptr(), POOL_SIZE, 0o600) };
            self.take(log);
        }
        unsafe { pmemlog_rewind(self.log) };
        self.writers = writers;
    }

    fn rounds(&mut self, times: usize, text: &mut [u8]) {
        for _ in 0..times {
            alter(text);
            for _ in 0..self.writers {
                self.append(text);
            }
        }
    }

    fn bytes_stored(&self) -> Option<u64> {
        None
    }

    fn keep(&mut self, entries: usize) {
        self.fresh(1);
        self.rounds(entries, &mut text_of(64));
        self.close();
    }

    fn open(&mut self, times: usize) -> Option<Duration> {
        let path = self.path();
        let mut time = Duration::ZERO;
        for _ in 0..times {
            time += timed(|| self.take(unsafe { pmemlog_open(path.as_ptr()) }));
            self.close();
        }
        Some(time)
    }

    fn read(&mut self, times: usize, buffer: &mut [u8]) {
        for _ in 0..times {
            unsafe { pmemlog_walk(self.log, buffer.len(), copy_first, buffer.as_mut_ptr()) };
        }
    }
}

impl Drop for Pmemlog {
    fn drop(&mut self) {
        self.close();
    }
}
