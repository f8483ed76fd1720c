//! What `recfile.h` and `recfile_file.h` declare, as far as the crate calls it.
#![allow(non_camel_case_types)]
use std::os::raw::{c_char, c_int};

/// The major number of the headers that this is taken from.
pub const VERSION_MAJOR: u32 = 1;

pub const OK: i32 = 0;
pub const EMPTY_KEY: i32 = 2;
pub const LONG_KEY: i32 = 3;
pub const LONG_RECORD: i32 = 4;
pub const BEGINS_SPENT: i32 = 5;
pub const ROLLING: i32 = 7;
pub const NOT_ROLLING: i32 = 8;
pub const HELD: i32 = 9;
pub const LOG_FULL: i32 = 10;
pub const DEVICE: i32 = 11;
pub const DAMAGED: i32 = 12;
pub const FULL: i32 = 13;
pub const ABSENT: i32 = 14;
pub const TOO_DEEP: i32 = 15;
pub const NO_SUCH_SAVE: i32 = 16;
pub const STOPPED: i32 = 17;
pub const MEMORY: i32 = 18;
pub const BAD_RECORDS: i32 = 21;
pub const BAD_LOG: i32 = 22;
pub const BAD_BEGINS: i32 = 23;
pub const STILL_OPEN: i32 = 24;
pub const BAD_LENGTH: i32 = 25;
pub const BAD_MAGIC: i32 = 26;
pub const BAD_VERSION: i32 = 27;
pub const BAD_ORDER: i32 = 28;
pub const NOT_CLEAN: i32 = 29;
pub const BAD_HEADER: i32 = 30;
pub const WRONG_COUNT: i32 = 31;
pub const TOO_MANY_RECORDS: i32 = 32;
pub const BAD_JOURNAL: i32 = 33;
#[repr(C)]
pub struct recfile {
    _private: [u8; 0],
}

#[repr(C)]
#[derive(Default, Clone, Copy)]
pub struct Detail {
    pub status: i32,
    pub owner: u32,
    pub page: u32,
    pub undone: u32,
    pub left: u32,
    pub cause: i32,
}

#[repr(C)]
#[derive(Clone, Copy)]
pub struct KeyBytes {
    pub bytes: [u8; 16],
    pub len: u8,
}

#[repr(C)]
#[derive(Clone, Copy)]
pub struct Found {
    pub bytes: [u8; 100],
    pub len: u8,
    pub is_there: u8,
}

#[repr(C)]
#[derive(Clone, Copy)]
pub struct Listed {
    pub owner: u32,
    pub is_owned: u8,
    pub key: KeyBytes,
    pub value: Found,
}

#[repr(C)]
#[derive(Default, Clone, Copy)]
pub struct TxStatus {
    pub is_rolling: u8,
    pub ends: u8,
    pub saves: u32,
    pub live: u32,
    pub left: u32,
}

#[repr(C)]
pub struct Failure {
    pub call: *const c_char,
    pub error: c_int,
}

extern "C" {
    pub fn recfile_version() -> u32;
    pub fn recfile_status_text(status: i32) -> *const c_char;
    pub fn recfile_new(out: *mut *mut recfile) -> i32;
    pub fn recfile_free(file: *mut recfile);
    pub fn recfile_discard(file: *mut recfile) -> i32;
    pub fn recfile_memory(file: *mut recfile, records: u32, log: u32, begins: u32) -> i32;
    pub fn recfile_open_path(
        file: *mut recfile,
        path: *const c_char,
        records: u32,
        log: u32,
        begins: u32,
        descriptor: *mut c_int,
        detail: *mut Detail,
        failure: *mut Failure,
    ) -> i32;
    pub fn recfile_create_path(
        file: *mut recfile,
        path: *const c_char,
        order: u16,
        records: u32,
        log: u32,
        begins: u32,
        descriptor: *mut c_int,
        detail: *mut Detail,
        failure: *mut Failure,
    ) -> i32;
    pub fn recfile_close(file: *mut recfile, detail: *mut Detail) -> i32;
    pub fn recfile_restore(path: *const c_char, descriptor: c_int, failure: *mut Failure) -> i32;
    pub fn recfile_carry_out_kept(
        file: *mut recfile,
        path: *const c_char,
        descriptor: c_int,
        failure: *mut Failure,
    ) -> i32;
    pub fn recfile_begin(file: *mut recfile, tx: *mut u32) -> i32;
    pub fn recfile_put(
        file: *mut recfile,
        tx: u32,
        key: *const u8,
        key_len: usize,
        value: *const u8,
        value_len: usize,
        before: *mut Found,
        detail: *mut Detail,
    ) -> i32;
    pub fn recfile_claim(
        file: *mut recfile,
        tx: u32,
        key: *const u8,
        key_len: usize,
        seen: *mut Found,
        detail: *mut Detail,
    ) -> i32;
    pub fn recfile_get(
        file: *mut recfile,
        tx: u32,
        key: *const u8,
        key_len: usize,
        found: *mut Found,
        detail: *mut Detail,
    ) -> i32;
    pub fn recfile_remove(
        file: *mut recfile,
        tx: u32,
        key: *const u8,
        key_len: usize,
        taken: *mut Found,
        detail: *mut Detail,
    ) -> i32;
    pub fn recfile_savepoint(file: *mut recfile, tx: u32, n: *mut u32) -> i32;
    pub fn recfile_release(file: *mut recfile, tx: u32, n: u32) -> i32;
    pub fn recfile_rollback_to(file: *mut recfile, tx: u32, n: u32, undone: *mut u32, detail: *mut Detail) -> i32;
    pub fn recfile_abort(file: *mut recfile, tx: u32, undone: *mut u32, detail: *mut Detail) -> i32;
    pub fn recfile_resume(file: *mut recfile, tx: u32, undone: *mut u32, detail: *mut Detail) -> i32;
    pub fn recfile_commit(file: *mut recfile, tx: u32) -> i32;
    pub fn recfile_status(file: *mut recfile, tx: u32, told: *mut TxStatus) -> i32;
    pub fn recfile_begun(file: *mut recfile, n: *mut u32) -> i32;
    pub fn recfile_log_use(file: *mut recfile, n: *mut u32) -> i32;
    pub fn recfile_count(file: *mut recfile, n: *mut u32) -> i32;
    pub fn recfile_committed(
        file: *mut recfile,
        key: *const u8,
        key_len: usize,
        found: *mut Found,
        detail: *mut Detail,
    ) -> i32;
    pub fn recfile_range(
        file: *mut recfile,
        key: *const u8,
        key_len: usize,
        at_key: u8,
        is_down: u8,
        most: u32,
        n: *mut u64,
        detail: *mut Detail,
    ) -> i32;
    pub fn recfile_entry(file: *mut recfile, i: u64, told: *mut Listed) -> i32;
    pub fn recfile_keys_of(file: *mut recfile, tx: u32, n: *mut u64) -> i32;
    pub fn recfile_key(file: *mut recfile, i: u64, told: *mut KeyBytes) -> i32;
}
