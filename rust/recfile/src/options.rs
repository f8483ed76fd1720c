use crate::file::File;
use crate::{sys, Error, Result};
use std::ffi::CString;
use std::fs;
use std::io;
use std::os::raw::{c_char, c_int};
use std::os::unix::ffi::OsStrExt;
use std::os::unix::io::AsRawFd;
use std::path::{Path, PathBuf};
use std::ptr::null;

/// The limits of a file, and the order of a new one.
#[derive(Clone, Copy, Debug)]
pub struct Options {
    order: u16,
    records: u32,
    log: u32,
    begins: u32,
}

impl Default for Options {
    fn default() -> Options {
        Options { order: 16, records: 1_000_000, log: 4_000_000, begins: 1_000_000 }
    }
}

impl Options {
    /// The greatest limits, and order 16.
    pub fn new() -> Options {
        Options::default()
    }

    /// A page of a new file has at most twice so many keys: 1 to 16.
    pub fn order(mut self, order: u16) -> Options {
        self.order = order;
        self
    }

    /// How many records the file may have.
    pub fn records(mut self, n: u32) -> Options {
        self.records = n;
        self
    }

    /// How many log records may be needed until it is closed.
    pub fn log(mut self, n: u32) -> Options {
        self.log = n;
        self
    }

    /// How many transactions may be begun until it is closed.
    pub fn begins(mut self, n: u32) -> Options {
        self.begins = n;
        self
    }

    /// An empty file in memory, which is gone when it is closed. Errors: `BadLimit`, `Memory`.
    pub fn memory(self) -> Result<File> {
        let file = File::new()?;
        // SAFETY: the handle is closed.
        file.done(unsafe { sys::recfile_memory(file.at(), self.records, self.log, self.begins) })?;
        Ok(file)
    }

    /// Opens a page file that is there. Errors: `BadLimit`, `Device`, `Locked`, `NotARecordFile`, `Damaged`, `BadJournal`,
    /// `Full`, `Memory`.
    pub fn open<P: AsRef<Path>>(self, path: P) -> Result<File> {
        self.open_at(&whole(path.as_ref())?)
    }

    /// Makes a page file where there is none. Errors: `BadLimit`, `Device`, `BadJournal`, `Memory`.
    pub fn create<P: AsRef<Path>>(self, path: P) -> Result<File> {
        self.create_at(&whole(path.as_ref())?)
    }

    /// Opens a page file, and makes it where there is none, or one that was made and never closed: such has no bytes.
    pub fn open_or_create<P: AsRef<Path>>(self, path: P) -> Result<File> {
        let path = whole(path.as_ref())?;
        match self.open_at(&path) {
            Err(Error::Device { call: "open", source }) if source.kind() == io::ErrorKind::NotFound => {
                self.create_at(&path)
            }
            Err(Error::NotARecordFile(_)) if remove_empty(&path)? => self.create_at(&path),
            other => other,
        }
    }

    fn open_at(self, path: &Path) -> Result<File> {
        at_path(path, |file, path, descriptor, detail, failure| {
            // SAFETY: the handle is closed; the rest lives until the call returns.
            unsafe {
                sys::recfile_open_path(file, path, self.records, self.log, self.begins, descriptor, detail, failure)
            }
        })
    }

    fn create_at(self, path: &Path) -> Result<File> {
        let mut file = at_path(path, |file, path, descriptor, detail, failure| {
            let Options { order, records, log, begins } = self;
            // SAFETY: as above.
            unsafe { sys::recfile_create_path(file, path, order, records, log, begins, descriptor, detail, failure) }
        })?;
        file.is_new = true;
        Ok(file)
    }
}

fn device(call: &'static str) -> impl Fn(io::Error) -> Error {
    move |source| Error::Device { call, source }
}

/// A path from the root on, so that a change of the folder doesn't lose the file when it is closed.
fn whole(path: &Path) -> Result<PathBuf> {
    Ok(std::env::current_dir().map_err(device("getcwd"))?.join(path))
}

/// Opens or makes a file by a call that is given the handle, the path, and where its answers go.
fn at_path<F>(path: &Path, call: F) -> Result<File>
where
    F: Fn(*mut sys::recfile, *const c_char, *mut c_int, *mut sys::Detail, *mut sys::Failure) -> i32,
{
    let path = CString::new(path.as_os_str().as_bytes())
        .map_err(|it| device("open")(io::Error::new(io::ErrorKind::InvalidInput, it)))?;
    let mut file = File::new()?;
    let mut detail = sys::Detail::default();
    let mut failure = sys::Failure { call: null(), error: 0 };
    let mut descriptor = -1;
    match call(file.at(), path.as_ptr(), &mut descriptor, &mut detail, &mut failure) {
        sys::OK => {
            file.place = Some((path, descriptor));
            Ok(file)
        }
        status => Err(Error::of_file(status, &detail, &failure)),
    }
}

/// Takes a file without bytes away that no other program has open. Whether there was one.
fn remove_empty(path: &Path) -> Result<bool> {
    let name = CString::new(path.as_os_str().as_bytes()).unwrap_or_default();
    let opened = fs::OpenOptions::new().read(true).write(true).open(path).map_err(device("open"))?;
    let mut failure = sys::Failure { call: null(), error: 0 };
    // SAFETY: the path and the descriptor live until the call returns, which takes the lock.
    let status = unsafe { sys::recfile_restore(name.as_ptr(), opened.as_raw_fd(), &mut failure) };
    if status != sys::OK {
        return Err(Error::of_file(status, &sys::Detail::default(), &failure));
    }
    let is_empty = opened.metadata().map_err(device("fstat"))?.len() == 0;
    if is_empty {
        fs::remove_file(path).map_err(device("unlink"))?;
    }
    Ok(is_empty)
}
