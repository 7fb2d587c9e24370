//! LMDB: one key a writer, one transaction a committed write.

use crate::column::*;
use crate::measure::timed;
use std::ffi::{c_char, c_int, c_uint, c_void, CString};
use std::fs;
use std::path::{Path, PathBuf};
use std::ptr::{null, null_mut};
use std::time::Duration;

/// MDB_NOSUBDIR: the path is a file.
const FILE: c_uint = 0x4000;
/// MDB_RDONLY
const READ_ONLY: c_uint = 0x20000;
const MAP_SIZE: usize = 64 << 20;

type Handle = *mut c_void;

/// MDB_val
#[repr(C)]
struct Value {
    size: usize,
    data: *const u8,
}

extern "C" {
    fn mdb_env_create(environment: *mut Handle) -> c_int;
    fn mdb_env_set_mapsize(environment: Handle, size: usize) -> c_int;
    fn mdb_env_open(environment: Handle, path: *const c_char, flags: c_uint, mode: c_uint) -> c_int;
    fn mdb_env_close(environment: Handle);
    fn mdb_txn_begin(environment: Handle, parent: Handle, flags: c_uint, transaction: *mut Handle) -> c_int;
    fn mdb_txn_commit(transaction: Handle) -> c_int;
    fn mdb_txn_abort(transaction: Handle);
    fn mdb_dbi_open(transaction: Handle, name: *const c_char, flags: c_uint, database: *mut c_uint) -> c_int;
    fn mdb_put(transaction: Handle, database: c_uint, key: *const Value, value: *const Value, flags: c_uint) -> c_int;
    fn mdb_get(transaction: Handle, database: c_uint, key: *const Value, value: *mut Value) -> c_int;
}

pub struct Lmdb {
    path: PathBuf,
    environment: Handle,
    database: c_uint,
    writers: usize,
    written_before: u64,
}

fn done(answer: c_int) {
    assert_eq!(answer, 0, "LMDB refuses");
}

impl Lmdb {
    pub fn new(folder: &Path) -> Lmdb {
        Lmdb { path: folder.join("lmdb"), environment: null_mut(), database: 0, writers: 0, written_before: 0 }
    }

    fn connect(&mut self) {
        let path = CString::new(self.path.to_str().unwrap()).unwrap();
        // SAFETY: here and below, handles that LMDB gave and memory that outlives the call.
        unsafe {
            done(mdb_env_create(&mut self.environment));
            done(mdb_env_set_mapsize(self.environment, MAP_SIZE));
            done(mdb_env_open(self.environment, path.as_ptr(), FILE, 0o600));
        }
        let transaction = self.begin(0);
        unsafe {
            done(mdb_dbi_open(transaction, null(), 0, &mut self.database));
            done(mdb_txn_commit(transaction));
        }
    }

    fn disconnect(&mut self) {
        if !self.environment.is_null() {
            unsafe { mdb_env_close(self.environment) };
            self.environment = null_mut();
        }
    }

    fn begin(&self, flags: c_uint) -> Handle {
        let mut transaction = null_mut();
        done(unsafe { mdb_txn_begin(self.environment, null_mut(), flags, &mut transaction) });
        transaction
    }

    fn write(&self, writer: usize, text: &[u8]) {
        let number = writer as u32;
        let key = Value { size: 4, data: (&raw const number).cast() };
        let value = Value { size: text.len(), data: text.as_ptr() };
        let transaction = self.begin(0);
        unsafe {
            done(mdb_put(transaction, self.database, &key, &value, 0));
            done(mdb_txn_commit(transaction));
        }
    }
}

impl Column for Lmdb {
    fn name(&self) -> &'static str {
        "LMDB"
    }

    fn promise(&self) -> &'static str {
        "committed writes whole"
    }

    fn fresh(&mut self, writers: usize) {
        self.disconnect();
        for end in ["", "-lock"] {
            let _ = fs::remove_file(format!("{}{end}", self.path.display()));
        }
        self.connect();
        self.writers = writers;
        self.written_before = bytes_to_files();
    }

    fn rounds(&mut self, times: usize, text: &mut [u8]) {
        for _ in 0..times {
            alter(text);
            for writer in 0..self.writers {
                self.write(writer, text);
            }
        }
    }

    fn bytes_stored(&self) -> Option<u64> {
        Some(bytes_to_files() - self.written_before)
    }

    fn keep(&mut self, entries: usize) {
        self.fresh(MOST_WRITERS);
        let mut text = text_of(64);
        for i in 0..entries {
            alter(&mut text);
            self.write(i % MOST_WRITERS, &text);
        }
        self.disconnect();
    }

    fn open(&mut self, times: usize) -> Option<Duration> {
        let mut time = Duration::ZERO;
        for _ in 0..times {
            time += timed(|| self.connect());
            self.disconnect();
        }
        Some(time)
    }

    fn read(&mut self, times: usize, buffer: &mut [u8]) {
        let number = 0u32;
        let key = Value { size: 4, data: (&raw const number).cast() };
        for _ in 0..times {
            let mut value = Value { size: 0, data: null() };
            let transaction = self.begin(READ_ONLY);
            unsafe {
                done(mdb_get(transaction, self.database, &key, &mut value));
                buffer.copy_from_slice(std::slice::from_raw_parts(value.data, buffer.len()));
                mdb_txn_abort(transaction);
            }
        }
    }
}

impl Drop for Lmdb {
    fn drop(&mut self) {
        self.disconnect();
    }
}
