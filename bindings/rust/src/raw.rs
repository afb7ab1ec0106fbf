//! gob.h, by hand: structs and calls.

use std::ffi::c_char;
use std::mem::size_of;

/// The interface that is declared here.
pub const ABI: u32 = 2;

pub const OK: u32 = 0;
pub const REFUSED: u32 = 1;
pub const NO_MEMORY: u32 = 2;
pub const BAD_LIMITS: u32 = 4;

pub const DEFINE: u32 = 1;

pub const BOOL: u16 = 1;
pub const INT: u16 = 2;
pub const UINT: u16 = 3;
pub const FLOAT: u16 = 4;
pub const BYTES: u16 = 5;
pub const STRING: u16 = 6;
pub const COMPLEX: u16 = 7;
pub const LIST: u16 = 9;
pub const MAP: u16 = 10;
pub const STRUCT: u16 = 11;
pub const OPAQUE: u16 = 12;
pub const ARRAY: u16 = 13;
pub const HELD: u16 = 15;

/// gob_reader, of which the library alone knows what it is.
#[repr(C)]
pub struct Reader {
    _inside: [u8; 0],
}

#[repr(C)]
#[derive(Clone, Copy, Default)]
pub struct Fault {
    pub status: u32,
    pub reason: u32,
    pub id: u64,
    pub place: u64,
    pub seen: u64,
    pub begin: u64,
}

#[repr(C)]
pub struct Limits {
    pub item: u64,
    pub depth: u64,
    pub types: u64,
    pub stream: u64,
}

#[repr(C)]
#[derive(Clone, Copy)]
pub struct Node {
    pub first: u64,
    pub second: u64,
    pub number: u32,
    pub kind: u16,
    pub named: u16,
}

#[repr(C)]
#[derive(Clone, Copy)]
pub struct Item {
    pub kind: u32,
    pub id: u32,
    pub nodes: *const Node,
    pub count: usize,
    pub bytes: *const u8,
    pub size: usize,
    pub begin: u64,
    pub end: u64,
}

// what they take in gob.h, where pointers have 64 bits
const _: () = assert!(size_of::<Fault>() == 40 && size_of::<Limits>() == 32);
const _: () = assert!(size_of::<Node>() == 24 && size_of::<Item>() == 56);

extern "C" {
    pub fn gob_abi() -> u32;
    pub fn gob_open(limits: *const Limits, fault: *mut Fault) -> *mut Reader;
    pub fn gob_open_exact(limits: *const Limits, fault: *mut Fault) -> *mut Reader;
    pub fn gob_feed(reader: *mut Reader, piece: *const u8, count: usize, fault: *mut Fault) -> u32;
    pub fn gob_finish(reader: *mut Reader, fault: *mut Fault) -> u32;
    pub fn gob_next(reader: *mut Reader, item: *mut Item) -> i32;
    pub fn gob_type(reader: *mut Reader, id: u32) -> *const Item;
    pub fn gob_close(reader: *mut Reader);
    pub fn gob_reason_name(reason: u32) -> *const c_char;
    pub fn gob_reason_text(reason: u32) -> *const c_char;
}
