//! SQLite in WAL mode: one row a writer, one UPDATE a committed write.

use crate::column::*;
use crate::measure::timed;
use std::ffi::{c_char, c_int, c_void, CStr, CString};
use std::fs;
use std::path::{Path, PathBuf};
use std::ptr::{null, null_mut};
use std::time::Duration;

const OK: c_int = 0;
const ROW: c_int = 100;
const DONE: c_int = 101;
/// SQLITE_DBCONFIG_NO_CKPT_ON_CLOSE: the log stays, as after a power loss.
const NO_CHECKPOINT_ON_CLOSE: c_int = 1006;

type Handle = *mut c_void;

extern "C" {
    fn sqlite3_open(path: *const c_char, database: *mut Handle) -> c_int;
    fn sqlite3_close(database: Handle) -> c_int;
    fn sqlite3_exec(database: Handle, text: *const c_char, each: *const c_void, argument: *mut c_void, message: *mut *mut c_char) -> c_int;
    fn sqlite3_errmsg(database: Handle) -> *const c_char;
    fn sqlite3_db_config(database: Handle, option: c_int, ...) -> c_int;
    fn sqlite3_prepare_v2(database: Handle, text: *const c_char, length: c_int, statement: *mut Handle, rest: *mut *const c_char) -> c_int;
    fn sqlite3_bind_int64(statement: Handle, place: c_int, value: i64) -> c_int;
    fn sqlite3_bind_blob(statement: Handle, place: c_int, bytes: *const u8, length: c_int, free: *const c_void) -> c_int;
    fn sqlite3_step(statement: Handle) -> c_int;
    fn sqlite3_reset(statement: Handle) -> c_int;
    fn sqlite3_finalize(statement: Handle) -> c_int;
    fn sqlite3_column_blob(statement: Handle, column: c_int) -> *const u8;
    fn sqlite3_column_bytes(statement: Handle, column: c_int) -> c_int;
}

#[derive(Clone, Copy, PartialEq, Eq)]
pub enum Synchronous {
    Full,
    Normal,
}

pub struct Sqlite {
    synchronous: Synchronous,
    path: PathBuf,
    database: Handle,
    update: Handle,
    select: Handle,
    writers: usize,
    written_before: u64,
}

impl Sqlite {
    pub fn new(folder: &Path, synchronous: Synchronous) -> Sqlite {
        let name = match synchronous {
            Synchronous::Full => "full.sqlite",
            Synchronous::Normal => "normal.sqlite",
        };
        let path = folder.join(name);
        Sqlite { synchronous, path, database: null_mut(), update: null_mut(), select: null_mut(), writers: 0, written_before: 0 }
    }

    fn execute(&self, text: &str) {
        let text = CString::new(text).unwrap();
        // SAFETY: here and below, handles that SQLite gave and strings that end with 0.
        self.expect(OK, unsafe { sqlite3_exec(self.database, text.as_ptr(), null(), null_mut(), null_mut()) });
    }

    fn expect(&self, wanted: c_int, answer: c_int) {
        if answer != wanted {
            let message = unsafe { CStr::from_ptr(sqlite3_errmsg(self.database)) };
            panic!("SQLite answers {answer}: {message:?}");
        }
    }

    fn prepare(&self, text: &str) -> Handle {
        let text = CString::new(text).unwrap();
        let mut statement = null_mut();
        self.expect(OK, unsafe { sqlite3_prepare_v2(self.database, text.as_ptr(), -1, &mut statement, null_mut()) });
        statement
    }

    fn connect(&mut self) {
        let path = CString::new(self.path.to_str().unwrap()).unwrap();
        let answer = unsafe { sqlite3_open(path.as_ptr(), &mut self.database) };
        self.expect(OK, answer);
        self.expect(OK, unsafe { sqlite3_db_config(self.database, NO_CHECKPOINT_ON_CLOSE, 1 as c_int, null_mut::<c_int>()) });
    }

    fn disconnect(&mut self) {
        unsafe {
            sqlite3_finalize(self.update);
            sqlite3_finalize(self.select);
            sqlite3_close(self.database);
        }
        (self.update, self.select, self.database) = (null_mut(), null_mut(), null_mut());
    }

    fn write(&self, writer: usize, text: &[u8]) {
        unsafe {
            sqlite3_bind_blob(self.update, 1, text.as_ptr(), text.len() as c_int, null());
            sqlite3_bind_int64(self.update, 2, writer as i64);
            self.expect(DONE, sqlite3_step(self.update));
            sqlite3_reset(self.update);
        }
    }

    /// Reads the first writer's row: its bytes.
    fn read_row(&self, buffer: &mut [u8]) {
        unsafe {
            self.expect(ROW, sqlite3_step(self.select));
            let length = (sqlite3_column_bytes(self.select, 0) as usize).min(buffer.len());
            let bytes = sqlite3_column_blob(self.select, 0);
            if length > 0 {
                buffer[..length].copy_from_slice(std::slice::from_raw_parts(bytes, length));
            }
            sqlite3_reset(self.select);
        }
    }

    fn prepare_select(&mut self) {
        self.select = self.prepare("SELECT text FROM readings WHERE writer = 0");
    }
}

impl Column for Sqlite {
    fn name(&self) -> &'static str {
        match self.synchronous {
            Synchronous::Full => "SQLite, FULL",
            Synchronous::Normal => "SQLite, NORMAL",
        }
    }

    fn promise(&self) -> &'static str {
        match self.synchronous {
            Synchronous::Full => "committed writes whole",
            Synchronous::Normal => "no write in part, the last may be lost",
        }
    }

    fn fresh(&mut self, writers: usize) {
        self.disconnect();
        for end in ["", "-wal", "-shm"] {
            let _ = fs::remove_file(format!("{}{end}", self.path.display()));
        }
        self.connect();
        self.execute("PRAGMA journal_mode = WAL");
        self.execute(match self.synchronous {
            Synchronous::Full => "PRAGMA synchronous = FULL",
            Synchronous::Normal => "PRAGMA synchronous = NORMAL",
        });
        self.execute("CREATE TABLE readings (writer INTEGER PRIMARY KEY, text BLOB)");
        for writer in 0..writers {
            self.execute(&format!("INSERT INTO readings VALUES ({writer}, x'')"));
        }
        self.update = self.prepare("UPDATE readings SET text = ? WHERE writer = ?");
        self.prepare_select();
        self.writers = writers;
        self.written_before = bytes_to_files();
    }

    fn rounds(&mut self, times: usize, text: &mut [u8]) {
        for _ in 0..times {
            alter(text);
            for writer in 0..self.writers {
                self.write(writer, text);
            }
        }
    }

    fn bytes_stored(&self) -> Option<u64> {
        Some(bytes_to_files() - self.written_before)
    }

    fn keep(&mut self, entries: usize) {
        self.fresh(MOST_WRITERS);
        self.execute("PRAGMA wal_checkpoint(TRUNCATE)");
        self.execute("PRAGMA wal_autocheckpoint = 0");
        let mut text = text_of(64);
        for i in 0..entries {
            alter(&mut text);
            self.write(i % MOST_WRITERS, &text);
        }
        self.disconnect();
    }

    /// Opens, and reads a row, which is when SQLite reads its log.
    fn open(&mut self, times: usize) -> Option<Duration> {
        let mut time = Duration::ZERO;
        for _ in 0..times {
            time += timed(|| {
                self.connect();
                self.prepare_select();
                self.read_row(&mut []);
            });
            self.disconnect();
        }
        Some(time)
    }

    fn read(&mut self, times: usize, buffer: &mut [u8]) {
        for _ in 0..times {
            self.read_row(buffer);
        }
    }
}

impl Drop for Sqlite {
    fn drop(&mut self) {
        self.disconnect();
    }
}
