//! The records and calls of `include/store.h`, as `shim.c` hands them on.
//! `shim.c` asserts the same sizes and places of the C records.

use std::mem::{align_of, offset_of, size_of};

#[repr(C)]
#[derive(Clone, Copy, Debug, PartialEq, Eq)]
pub struct Shared {
    pub blocks: u32,
    pub joined: u32,
    pub chain: u32,
    pub reports: [u32; 32],
    pub taken: [u64; 16],
}

#[repr(C)]
#[derive(Clone, Copy, Debug, PartialEq, Eq)]
pub struct Head {
    pub number: u32,
    pub length: u32,
    pub block: u32,
    pub slot: u32,
    pub offset: u32,
    pub size: u32,
    pub run: u32,
    pub phase: u32,
    pub position: u32,
    pub zeroing: u32,
    pub retries: u32,
}

#[repr(C)]
#[derive(Clone, Copy, Debug, PartialEq, Eq)]
pub struct Point {
    pub head: Head,
    pub table: [u16; 256],
    pub text: [u8; 1024],
}

#[repr(C)]
#[derive(Clone, Copy, Debug, PartialEq, Eq)]
pub struct Opened {
    pub refused: u32,
    pub length: u32,
    pub entries: u32,
    pub free: u32,
}

#[repr(C)]
#[derive(Clone, Copy, Debug, PartialEq, Eq)]
pub struct Answer {
    pub kind: u32,
    pub value: u32,
    pub word: usize,
}

#[repr(C)]
#[derive(Clone, Copy, Debug, PartialEq, Eq)]
pub struct Count {
    pub refused: u32,
    pub count: u32,
}

#[repr(C)]
#[derive(Clone, Copy, Debug, PartialEq, Eq)]
pub struct Write {
    pub offset: usize,
    pub size: usize,
}

#[repr(C)]
#[derive(Clone, Copy, Debug, PartialEq, Eq)]
pub struct Served {
    pub kind: u32,
    pub value: u32,
}

pub type Table = [u16; 256];
pub type Text = [u8; 1024];

const _: () = {
    assert!(size_of::<Shared>() == 272 && align_of::<Shared>() == 8 && offset_of!(Shared, joined) == 4);
    assert!(offset_of!(Shared, chain) == 8 && offset_of!(Shared, reports) == 12 && offset_of!(Shared, taken) == 144);
    assert!(size_of::<Head>() == 44 && align_of::<Head>() == 4 && offset_of!(Head, retries) == 40);
    assert!(size_of::<Point>() == 1_580 && offset_of!(Point, table) == 44 && offset_of!(Point, text) == 556);
    assert!(size_of::<Opened>() == 16 && size_of::<Answer>() == 16 && size_of::<Count>() == 8);
    assert!(size_of::<Write>() == 16 && size_of::<Served>() == 8 && offset_of!(Write, size) == 8 && offset_of!(Served, value) == 4);
};

/// What a step answers.
pub const STORED: u32 = 1;
pub const MOVED: u32 = 2;
pub const EXTENDING: u32 = 3;
pub const COMMITTED: u32 = 4;
pub const REFUSED: u32 = 5;
pub const COPIED: u32 = 6;
pub const BYTES: u32 = 7;

/// The phase of a point that reads in steps; none lies above it.
pub const READING: u32 = 6;

/// Why a beginning is refused in a full image.
pub const NO_RUN: u32 = 19;

extern "C" {
    pub fn shim_lay_out(image: *mut u64, words: usize) -> u32;
    pub fn shim_open(
        image: *const u64,
        words: usize,
        scratch: *mut u16,
        places: usize,
        shared: *mut Shared,
    ) -> Opened;
    pub fn shim_list(
        image: *const u64,
        words: usize,
        scratch: *mut u16,
        places: usize,
        rows: *mut u16,
    ) -> Opened;
    pub fn shim_join(
        image: *const u64,
        words: usize,
        shared: *mut Shared,
        number: u32,
        point: *mut Point,
    ) -> u32;
    pub fn shim_begin(
        image: *const u64,
        words: usize,
        shared: *mut Shared,
        point: *mut Point,
        offset: usize,
        bytes: *const u8,
        size: usize,
    ) -> u32;
    pub fn shim_begin_read(
        image: *const u64,
        words: usize,
        shared: *mut Shared,
        point: *mut Point,
        offset: usize,
        size: usize,
    ) -> u32;
    pub fn shim_step(
        image: *mut u64,
        words: usize,
        shared: *mut Shared,
        point: *mut Point,
        bytes: *mut u8,
    ) -> Answer;
    pub fn shim_serve(
        image: *mut u64,
        words: usize,
        shared: *mut Shared,
        heads: *mut Head,
        head_count: usize,
        tables: *mut Table,
        table_count: usize,
        texts: *mut Text,
        text_count: usize,
        answers: *mut Served,
        answer_count: usize,
        writes: *const Write,
        write_count: usize,
        bytes: *const u8,
        size: usize,
    ) -> u32;
    pub fn shim_put(heads: *mut Head, tables: *mut Table, texts: *mut Text, i: usize, point: *const Point);
    pub fn shim_get(heads: *const Head, tables: *mut Table, texts: *mut Text, i: usize, point: *mut Point);
    pub fn shim_leave(image: *const u64, words: usize, shared: *mut Shared, point: *const Point) -> u32;
    pub fn shim_read(
        image: *const u64,
        words: usize,
        shared: *const Shared,
        point: *const Point,
        offset: usize,
        buffer: *mut u8,
        room: usize,
    ) -> Count;
    pub fn shim_locate(
        image: *const u64,
        words: usize,
        shared: *const Shared,
        point: *const Point,
        block: usize,
    ) -> Count;
    pub fn shim_view(
        image: *const u64,
        words: usize,
        shared: *const Shared,
        point: *const Point,
        block: usize,
    ) -> *const u64;
    pub fn shim_behind(image: *const u64, words: usize, shared: *const Shared, number: u32) -> u32;
    pub fn shim_reserve(bytes: usize) -> *mut u8;
    pub fn shim_release(found: *mut u8, bytes: usize);
}
