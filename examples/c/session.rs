//! A session over a page file, by the static library: what session.c does.
//!
//!     session FILE          makes FILE, and opens it again
//!     session --list FILE   opens FILE, lists its records, and closes it

use std::ffi::{CStr, CString};
use std::io::Error;
use std::os::raw::{c_char, c_int};
use std::ptr::{null, null_mut};

const OK: i32 = 0;
const CLOSED: i32 = 1;
const HELD: i32 = 9;
const STILL_OPEN: i32 = 24;

/// The major number of the header that the structs and calls below are taken from.
const MAJOR: u32 = 1;

#[repr(C)]
pub struct RecFile {
    _private: [u8; 0],
}

#[repr(C)]
#[derive(Default)]
pub struct Detail {
    status: i32,
    owner: u32,
    page: u32,
    undone: u32,
    left: u32,
    cause: i32,
}

#[repr(C)]
#[derive(Default)]
pub struct KeyBytes {
    bytes: [u8; 16],
    len: u8,
}

#[repr(C)]
pub struct Record {
    bytes: [u8; 100],
    len: u8,
    is_there: u8,
}

#[repr(C)]
#[derive(Default)]
pub struct Listed {
    owner: u32,
    is_owned: u8,
    key: KeyBytes,
    value: Record,
}

/// What failed: a call of the system's, with its errno, or null.
#[repr(C)]
pub struct Failure {
    call: *const c_char,
    error: c_int,
}

impl Default for Record {
    fn default() -> Record {
        Record { bytes: [0; 100], len: 0, is_there: 0 }
    }
}

extern "C" {
    fn recfile_version() -> u32;
    fn recfile_new(out: *mut *mut RecFile) -> i32;
    fn recfile_free(file: *mut RecFile);
    fn recfile_status_text(status: i32) -> *const c_char;
    fn recfile_open_path(
        file: *mut RecFile,
        path: *const c_char,
        records: u32,
        log: u32,
        begins: u32,
        descriptor: *mut c_int,
        detail: *mut Detail,
        failure: *mut Failure,
    ) -> i32;
    fn recfile_create_path(
        file: *mut RecFile,
        path: *const c_char,
        order: u16,
        records: u32,
        log: u32,
        begins: u32,
        descriptor: *mut c_int,
        detail: *mut Detail,
        failure: *mut Failure,
    ) -> i32;
    fn recfile_close_path(
        file: *mut RecFile,
        path: *const c_char,
        descriptor: c_int,
        detail: *mut Detail,
        failure: *mut Failure,
    ) -> i32;
    fn recfile_begin(file: *mut RecFile, tx: *mut u32) -> i32;
    fn recfile_put(
        file: *mut RecFile,
        tx: u32,
        key: *const u8,
        key_len: usize,
        value: *const u8,
        value_len: usize,
        before: *mut Record,
        detail: *mut Detail,
    ) -> i32;
    fn recfile_claim(file: *mut RecFile, tx: u32, key: *const u8, key_len: usize, seen: *mut Record, detail: *mut Detail) -> i32;
    fn recfile_get(file: *mut RecFile, tx: u32, key: *const u8, key_len: usize, found: *mut Record, detail: *mut Detail) -> i32;
    fn recfile_savepoint(file: *mut RecFile, tx: u32, n: *mut u32) -> i32;
    fn recfile_rollback_to(file: *mut RecFile, tx: u32, n: u32, undone: *mut u32, detail: *mut Detail) -> i32;
    fn recfile_abort(file: *mut RecFile, tx: u32, undone: *mut u32, detail: *mut Detail) -> i32;
    fn recfile_commit(file: *mut RecFile, tx: u32) -> i32;
    fn recfile_keys_of(file: *mut RecFile, tx: u32, n: *mut u64) -> i32;
    fn recfile_key(file: *mut RecFile, i: u64, told: *mut KeyBytes) -> i32;
    fn recfile_entries(file: *mut RecFile, n: *mut u64, detail: *mut Detail) -> i32;
    fn recfile_entry(file: *mut RecFile, i: u64, told: *mut Listed) -> i32;
    fn recfile_log_len(file: *mut RecFile, n: *mut u32) -> i32;
    fn recfile_log_use(file: *mut RecFile, n: *mut u32) -> i32;
    fn recfile_close(file: *mut RecFile, detail: *mut Detail) -> i32;
}

/// Ends the program where a call did not answer as it should.
fn check(status: i32, expected: i32, what: &str) {
    assert_eq!(status, expected, "{what}");
}

/// The same of a call that works on the file.
fn check_file(status: i32, failure: &Failure) -> Result<(), String> {
    if status == OK {
        return Ok(());
    }
    let text = unsafe { CStr::from_ptr(recfile_status_text(status)) }.to_string_lossy();
    if failure.call.is_null() {
        return Err(text.into_owned());
    }
    let call = unsafe { CStr::from_ptr(failure.call) }.to_string_lossy();
    Err(format!("{text}: {call}: {}", Error::from_raw_os_error(failure.error)))
}

fn text(bytes: &[u8], len: u8) -> String {
    String::from_utf8_lossy(&bytes[..len.into()]).into_owned()
}

/// A handle, which is given back with it.
struct Handle {
    file: *mut RecFile,
    detail: Detail,
}

impl Drop for Handle {
    fn drop(&mut self) {
        unsafe { recfile_free(self.file) }
    }
}

impl Handle {
    fn new() -> Handle {
        let mut file = null_mut();
        check(unsafe { recfile_new(&mut file) }, OK, "new");
        Handle { file, detail: Detail::default() }
    }

    fn begin(&mut self) -> u32 {
        let mut tx = 0;
        check(unsafe { recfile_begin(self.file, &mut tx) }, OK, "begin");
        tx
    }

    fn put(&mut self, tx: u32, key: &str, value: &str, expected: i32) {
        let mut before = Record::default();
        let status = unsafe {
            recfile_put(self.file, tx, key.as_ptr(), key.len(), value.as_ptr(), value.len(), &mut before, &mut self.detail)
        };
        check(status, expected, "put");
        if status == OK && before.is_there != 0 {
            println!("put {tx} {key}: before {}", text(&before.bytes, before.len));
        } else if status == OK {
            println!("put {tx} {key}: none before");
        }
    }

    fn claim(&mut self, tx: u32, key: &str) {
        let mut seen = Record::default();
        let status = unsafe { recfile_claim(self.file, tx, key.as_ptr(), key.len(), &mut seen, &mut self.detail) };
        check(status, OK, "claim");
        if seen.is_there != 0 {
            println!("claim {tx} {key}: {} there", text(&seen.bytes, seen.len));
        } else {
            println!("claim {tx} {key}: none there");
        }
    }

    fn list(&mut self) {
        let mut count = 0;
        check(unsafe { recfile_entries(self.file, &mut count, &mut self.detail) }, OK, "entries");
        for i in 0..count {
            let mut told = Listed::default();
            check(unsafe { recfile_entry(self.file, i, &mut told) }, OK, "entry");
            print!("{} = {}", text(&told.key.bytes, told.key.len), text(&told.value.bytes, told.value.len));
            if told.is_owned != 0 {
                print!(" (of {})", told.owner);
            }
            println!();
        }
        println!("{count} records");
    }

    fn keys(&mut self, tx: u32) {
        let mut count = 0;
        check(unsafe { recfile_keys_of(self.file, tx, &mut count) }, OK, "keys_of");
        for i in 0..count {
            let mut told = KeyBytes::default();
            check(unsafe { recfile_key(self.file, i, &mut told) }, OK, "key");
            println!("{tx} owns {}", text(&told.bytes, told.len));
        }
    }

    fn work(&mut self) {
        let (mut save, mut undone, mut length, mut log_use) = (0, 0, 0, 0);
        let first = self.begin();
        let second = self.begin();
        self.put(first, "apple", "red", OK);
        check(unsafe { recfile_savepoint(self.file, first, &mut save) }, OK, "savepoint");
        self.put(first, "apple", "green", OK);
        self.put(first, "plum", "dark blue", OK);
        self.put(second, "pear", "yellow", OK);
        self.put(first, "pear", "brown", HELD);
        println!("pear is held by {}", self.detail.owner);
        let status = unsafe { recfile_rollback_to(self.file, first, save, &mut undone, &mut self.detail) };
        check(status, OK, "rollback_to");
        println!("{undone} changes taken back");
        let mut found = Record::default();
        let status = unsafe { recfile_get(self.file, first, "apple".as_ptr(), 5, &mut found, &mut self.detail) };
        check(status, OK, "get");
        println!("apple is {}", text(&found.bytes, found.len));
        self.claim(second, "plum");
        self.put(first, "plum", "blue", HELD);
        println!("plum is held by {}", self.detail.owner);
        self.keys(first);
        self.keys(second);
        self.list();
        check(unsafe { recfile_log_len(self.file, &mut length) }, OK, "log_len");
        check(unsafe { recfile_log_use(self.file, &mut log_use) }, OK, "log_use");
        println!("log {length} {log_use}");
        check(unsafe { recfile_close(self.file, &mut self.detail) }, STILL_OPEN, "close");
        println!("{} transactions are open", self.detail.left);
        check(unsafe { recfile_commit(self.file, first) }, OK, "commit");
        check(unsafe { recfile_abort(self.file, second, &mut undone, &mut self.detail) }, OK, "abort");
        println!("{undone} changes taken back");
    }

    /// Closes the file, so that it is the old one or the new one wherever this is stopped.
    fn finish(&mut self, path: &CStr, descriptor: c_int) -> Result<(), String> {
        let mut failure = Failure { call: null(), error: 0 };
        let status = unsafe { recfile_close_path(self.file, path.as_ptr(), descriptor, &mut self.detail, &mut failure) };
        check_file(status, &failure)?;
        check(unsafe { recfile_begin(self.file, &mut 0) }, CLOSED, "begin");
        Ok(())
    }

    fn make(&mut self, path: &CStr) -> Result<(), String> {
        let (mut descriptor, mut failure) = (-1, Failure { call: null(), error: 0 });
        let status = unsafe {
            recfile_create_path(
                self.file, path.as_ptr(), 2, 1000, 1000, 1000, &mut descriptor, &mut self.detail, &mut failure,
            )
        };
        check_file(status, &failure)?;
        self.work();
        self.finish(path, descriptor)
    }

    fn list_file(&mut self, path: &CStr) -> Result<(), String> {
        let (mut descriptor, mut failure) = (-1, Failure { call: null(), error: 0 });
        let status = unsafe {
            recfile_open_path(
                self.file, path.as_ptr(), 1000, 1000, 1000, &mut descriptor, &mut self.detail, &mut failure,
            )
        };
        check_file(status, &failure)?;
        self.list();
        self.finish(path, descriptor)
    }
}

fn main() -> Result<(), String> {
    let words: Vec<String> = std::env::args().skip(1).collect();
    let (only_list, path) = match words.as_slice() {
        [path] => (false, path),
        [list, path] if list == "--list" => (true, path),
        _ => {
            eprintln!("usage: session [--list] FILE");
            std::process::exit(2);
        }
    };
    assert_eq!(unsafe { recfile_version() } >> 16, MAJOR, "the library has another version");
    let path = CString::new(path.as_str()).map_err(|error| error.to_string())?;
    let mut handle = Handle::new();
    if !only_list {
        handle.make(&path)?;
    }
    handle.list_file(&path)
}
