//! Times of the store beside others, in one run with the same inputs.

pub mod beginning;
pub mod column;
pub mod growth;
#[cfg(feature = "library")]
pub mod library;
#[cfg(feature = "lmdb")]
pub mod lmdb;
pub mod measure;
pub mod memory;
pub mod page;
#[cfg(feature = "pmemlog")]
pub mod pmemlog;
#[cfg(feature = "pmemobj")]
pub mod pmemobj;
pub mod port;
pub mod rows;
pub mod second;
#[cfg(feature = "library")]
pub mod serving;
#[cfg(feature = "sqlite")]
pub mod sqlite;
pub mod store;
pub mod svg;
pub mod table;
#[cfg(feature = "library")]
pub mod written_back;

use column::Column;
use rows::Shared;
use std::cell::RefCell;
use std::fs;
use std::path::Path;
use std::rc::Rc;
use store::{Store, Turns};

/// The store that ratios are taken against: this library, or the second
/// implementation where the library is not built.
#[cfg(feature = "library")]
pub type First = library::Library;
#[cfg(not(feature = "library"))]
pub type First = second::Second;

/// A column that several cells use in turn.
pub fn shared(column: impl Column + 'static) -> Shared {
    Rc::new(RefCell::new(column))
}

/// All columns, the one that ratios are taken against first. Files are made
/// in `folder`, which is made if it is not there.
pub fn columns(folder: &Path) -> Vec<Shared> {
    fs::create_dir_all(folder).expect("a folder in a memory file system");
    vec![
        #[cfg(feature = "library")]
        shared(Turns::of(library::Library::new(1_024))),
        shared(Turns::of(second::Second::new(1_024))),
        #[cfg(feature = "sqlite")]
        shared(sqlite::Sqlite::new(folder, sqlite::Synchronous::Full)),
        #[cfg(feature = "sqlite")]
        shared(sqlite::Sqlite::new(folder, sqlite::Synchronous::Normal)),
        #[cfg(feature = "lmdb")]
        shared(lmdb::Lmdb::new(folder)),
        #[cfg(feature = "pmemobj")]
        shared(pmemobj::Pmemobj::new(folder)),
        #[cfg(feature = "pmemlog")]
        shared(pmemlog::Pmemlog::new(folder)),
        shared(memory::Memory::new()),
    ]
}
