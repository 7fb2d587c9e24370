//! libpmemobj: a place a writer, one transaction with an undo log a committed
//! write.

use crate::column::*;
use crate::measure::timed;
use std::ffi::{c_char, c_int, c_void, CString};
use std::fs;
use std::path::{Path, PathBuf};
use std::ptr::{copy_nonoverlapping, null, null_mut};
use std::time::Duration;

/// PMEMOBJ_MIN_POOL
const POOL_SIZE: usize = 8 << 20;
/// TX_PARAM_NONE
const NO_PARAMETER: c_int = 0;

type Handle = *mut c_void;

/// PMEMoid
#[repr(C)]
#[derive(Clone, Copy)]
struct Identifier {
    pool: u64,
    offset: u64,
}

extern "C" {
    fn pmemobj_create(path: *const c_char, layout: *const c_char, size: usize, mode: u32) -> Handle;
    fn pmemobj_open(path: *const c_char, layout: *const c_char) -> Handle;
    fn pmemobj_close(pool: Handle);
    fn pmemobj_root(pool: Handle, size: usize) -> Identifier;
    fn pmemobj_direct(identifier: Identifier) -> *mut u8;
    fn pmemobj_tx_begin(pool: Handle, jump: *mut c_void, ...) -> c_int;
    fn pmemobj_tx_add_range_direct(place: *const u8, size: usize) -> c_int;
    fn pmemobj_tx_commit();
    fn pmemobj_tx_end() -> c_int;
}

pub struct Pmemobj {
    path: PathBuf,
    pool: Handle,
    file: *mut u8,
    writers: usize,
}

impl Pmemobj {
    pub fn new(folder: &Path) -> Pmemobj {
        Pmemobj { path: folder.join("pmemobj"), pool: null_mut(), file: null_mut(), writers: 0 }
    }

    fn path(&self) -> CString {
        CString::new(self.path.to_str().unwrap()).unwrap()
    }

    /// Takes a pool that was made or opened, with its root object.
    fn take(&mut self, pool: Handle) {
        assert!(!pool.is_null(), "libpmemobj refuses");
        self.pool = pool;
        // SAFETY: here and below, a pool that is open and places inside its root object.
        self.file = unsafe { pmemobj_direct(pmemobj_root(pool, APART * MOST_WRITERS)) };
    }

    fn close(&mut self) {
        if !self.pool.is_null() {
            unsafe { pmemobj_close(self.pool) };
            self.pool = null_mut();
        }
    }

    fn write(&self, writer: usize, text: &[u8]) {
        unsafe {
            let place = self.file.add(APART * writer);
            assert_eq!(pmemobj_tx_begin(self.pool, null_mut(), NO_PARAMETER), 0);
            assert_eq!(pmemobj_tx_add_range_direct(place, text.len()), 0);
            copy_nonoverlapping(text.as_ptr(), place, text.len());
            pmemobj_tx_commit();
            assert_eq!(pmemobj_tx_end(), 0);
        }
    }
}

impl Column for Pmemobj {
    fn name(&self) -> &'static str {
        "libpmemobj"
    }

    fn promise(&self) -> &'static str {
        "committed writes whole"
    }

    /// An open pool stays: its transactions leave nothing behind.
    fn fresh(&mut self, writers: usize) {
        if self.pool.is_null() {
            let _ = fs::remove_file(&self.path);
            let pool = unsafe { pmemobj_create(self.path().as_ptr(), null(), POOL_SIZE, 0o600) };
            self.take(pool);
        }
        self.writers = writers;
    }

    fn rounds(&mut self, times: usize, text: &mut [u8]) {
        for _ in 0..times {
            alter(text);
            for writer in 0..self.writers {
                self.write(writer, text);
            }
        }
    }

    fn bytes_stored(&self) -> Option<u64> {
        None
    }

    fn keep(&mut self, entries: usize) {
        self.fresh(MOST_WRITERS);
        let mut text = text_of(64);
        for i in 0..entries {
            alter(&mut text);
            self.write(i % MOST_WRITERS, &text);
        }
        self.close();
    }

    fn open(&mut self, times: usize) -> Option<Duration> {
        let path = self.path();
        let mut time = Duration::ZERO;
        for _ in 0..times {
            time += timed(|| self.take(unsafe { pmemobj_open(path.as_ptr(), null()) }));
            self.close();
        }
        Some(time)
    }

    fn read(&mut self, times: usize, buffer: &mut [u8]) {
        for _ in 0..times {
            let buffer = std::hint::black_box(&mut *buffer);
            unsafe { copy_nonoverlapping(self.file, buffer.as_mut_ptr(), buffer.len()) };
        }
    }
}

impl Drop for Pmemobj {
    fn drop(&mut self) {
        self.close();
    }
}
