use crate::bytes::{Bytes, Entry, Record};
use crate::entries::Entries;
use crate::transaction::Transaction;
use crate::{sys, Error, Options, Result};
use std::cell::Cell;
use std::ffi::CString;
use std::fmt;
use std::fs;
use std::marker::PhantomData;
use std::mem::{ManuallyDrop, MaybeUninit};
use std::ops::RangeBounds;
use std::os::raw::c_int;
use std::os::unix::io::FromRawFd;
use std::path::Path;
use std::process;
use std::ptr::{null, null_mut, NonNull};

/// An open file.
///
/// It may go to another thread, where no transaction of it is open, and is used by one at a time. Nothing is on the disk
/// before it is closed. Where it is dropped it is closed as by [`File::close`], and a fault of that is lost.
pub struct File {
    handle: NonNull<sys::recfile>,
    pub(crate) place: Option<(CString, c_int)>,
    /// Made by this handle, and not closed yet: the file on the disk has no bytes.
    pub(crate) is_new: bool,
    /// Its steps are to be carried out.
    is_closing: bool,
    /// They were tried, and failed.
    has_failed: bool,
    is_done: bool,
    process: u32,
    one_thread: PhantomData<Cell<()>>,
}

// SAFETY: a handle has nothing to do with a thread, and `&File` isn't sent, so that one thread calls at a time.
unsafe impl Send for File {}

impl File {
    pub(crate) fn new() -> Result<File> {
        // SAFETY: no pointer is passed.
        let version = unsafe { sys::recfile_version() } >> 16;
        assert_eq!(version, sys::VERSION_MAJOR, "librecfile has another major version");
        let mut handle = null_mut();
        // SAFETY: the pointer is written to.
        let status = unsafe { sys::recfile_new(&mut handle) };
        match NonNull::new(handle) {
            Some(handle) if status == sys::OK => Ok(File {
                handle,
                place: None,
                is_new: false,
                is_closing: false,
                has_failed: false,
                is_done: false,
                process: process::id(),
                one_thread: PhantomData,
            }),
            _ => Err(Error::Memory),
        }
    }

    #[inline]
    pub(crate) fn at(&self) -> *mut sys::recfile {
        self.handle.as_ptr()
    }

    /// What a status says that carries nothing.
    pub(crate) fn done(&self, status: i32) -> Result<()> {
        match status {
            sys::OK => Ok(()),
            other => Err(Error::of(other, &sys::Detail::default())),
        }
    }

    /// Opens a page file with the greatest limits, as [`Options::open`].
    pub fn open<P: AsRef<Path>>(path: P) -> Result<File> {
        Options::new().open(path)
    }

    /// Makes a page file of order 16 where there is none, as [`Options::create`].
    pub fn create<P: AsRef<Path>>(path: P) -> Result<File> {
        Options::new().create(path)
    }

    /// An empty file in memory, as [`Options::memory`].
    pub fn memory() -> Result<File> {
        Options::new().memory()
    }

    /// Begins a transaction, which goes back where it is dropped. Errors: `BeginsSpent`, `Memory`.
    pub fn begin(&self) -> Result<Transaction<'_>> {
        let mut number = 0;
        // SAFETY: the handle is one, and `number` is written to.
        self.done(unsafe { sys::recfile_begin(self.at(), &mut number) })?;
        Ok(Transaction::new(self, number))
    }

    /// The records in key order, also those that open transactions have put, and without those that they have taken out.
    pub fn entries(&self) -> Entries<'_> {
        self.range::<&[u8], _>(..)
    }

    /// Those whose keys are in a range, as `file.range("a".."c")`. Its items are errors where a page is `Damaged` or there is no
    /// `Memory`.
    pub fn range<K, R>(&self, keys: R) -> Entries<'_>
    where
        K: AsRef<[u8]>,
        R: RangeBounds<K>,
    {
        Entries::new(self, &keys)
    }

    /// The record of the least key. Errors: `Memory`, `Damaged`.
    pub fn first(&self) -> Result<Option<Entry>> {
        self.entries().next().transpose()
    }

    /// The record of the greatest key. Errors: `Memory`, `Damaged`.
    pub fn last(&self) -> Result<Option<Entry>> {
        self.entries().next_back().transpose()
    }

    /// The record that stands at a key without the changes of open transactions. Errors: `EmptyKey`, `LongKey`, `Damaged`.
    pub fn committed(&self, key: &[u8]) -> Result<Option<Record>> {
        let mut found = MaybeUninit::<sys::Found>::uninit();
        let mut detail = sys::Detail::default();
        // SAFETY: the handle is one, the key has its length, and OK means that all of `found` was written.
        let found = unsafe {
            match sys::recfile_committed(self.at(), key.as_ptr(), key.len(), found.as_mut_ptr(), &mut detail) {
                sys::OK => found.assume_init(),
                other => return Err(Error::of(other, &detail)),
            }
        };
        Ok((found.is_there != 0).then(|| Bytes::new(found.bytes, found.len)))
    }

    /// How many records there are, also those that open transactions have put.
    pub fn count(&self) -> Result<u32> {
        let mut n = 0;
        // SAFETY: the handle is one, and `n` is written to.
        self.done(unsafe { sys::recfile_count(self.at(), &mut n) })?;
        Ok(n)
    }

    /// At most so many entries from a key on, in key order or the greatest key first; of no bytes those from that end on.
    pub(crate) fn some_from(&self, key: &[u8], at_key: bool, is_down: bool, most: u32) -> Result<Vec<Entry>> {
        let (mut count, mut detail) = (0, sys::Detail::default());
        // SAFETY: the handle is one, the key has its length; the rest is written to.
        let status = unsafe {
            let (at_key, is_down) = (at_key.into(), is_down.into());
            sys::recfile_range(self.at(), key.as_ptr(), key.len(), at_key, is_down, most, &mut count, &mut detail)
        };
        if status != sys::OK {
            return Err(Error::of(status, &detail));
        }
        // The library keeps one list a handle, which the next one takes the place of: so it is copied.
        let mut out = Vec::new();
        out.try_reserve(count as usize).map_err(|_| Error::Memory)?;
        for i in 0..count {
            out.push(self.entry(i)?);
        }
        Ok(out)
    }

    /// Entry i of the list that was made last.
    fn entry(&self, i: u64) -> Result<Entry> {
        let mut told = MaybeUninit::<sys::Listed>::uninit();
        // SAFETY: the handle is one; OK means that all of `told` was written.
        let told = unsafe {
            self.done(sys::recfile_entry(self.at(), i, told.as_mut_ptr()))?;
            told.assume_init()
        };
        Ok(Entry {
            key: Bytes::new(told.key.bytes, told.key.len),
            record: Bytes::new(told.value.bytes, told.value.len),
            owner: (told.is_owned != 0).then_some(told.owner),
        })
    }

    /// The length of the log with what the live changes may yet need: a change that might need more than there may be is
    /// refused with `LogFull`.
    pub fn log_use(&self) -> Result<u32> {
        let mut n = 0;
        // SAFETY: the handle is one, and `n` is written to.
        self.done(unsafe { sys::recfile_log_use(self.at(), &mut n) })?;
        Ok(n)
    }

    /// Writes the file, so that it is the old one or the new one wherever this is stopped. Where it fails, as on a full
    /// disk, the file is the old one, and [`Unclosed`] can try again.
    pub fn close(mut self) -> std::result::Result<(), Unclosed> {
        match self.finish() {
            Ok(()) => Ok(()),
            Err(cause) => Err(Unclosed { file: self, cause }),
        }
    }

    /// Gives up all that was changed since it was opened, what was committed too. The file on the disk is the old one.
    pub fn discard(mut self) {
        self.give_up();
    }

    fn give_up(&mut self) {
        self.is_done = true;
        // SAFETY: the handle is one.
        unsafe { sys::recfile_discard(self.at()) };
        if let Some((_, descriptor)) = self.place.take() {
            // SAFETY: the descriptor was handed over by the library, and is closed once.
            drop(unsafe { fs::File::from_raw_fd(descriptor) });
        }
    }

    fn finish(&mut self) -> Result<()> {
        if self.process != process::id() {
            return Err(Error::WrongProcess);
        }
        if self.place.is_some() {
            if !self.is_closing {
                let mut ended = self.end();
                if let Err(Error::StillOpen { .. }) = ended {
                    self.end_forgotten()?;
                    ended = self.end();
                }
                ended?;
                self.is_closing = true;
            }
            self.write()?;
        }
        self.give_up();
        Ok(())
    }

    fn end(&mut self) -> Result<()> {
        let mut detail = sys::Detail::default();
        // SAFETY: the handle is one, and `detail` is written to.
        match unsafe { sys::recfile_close(self.at(), &mut detail) } {
            sys::OK => Ok(()),
            other => Err(Error::of(other, &detail)),
        }
    }

    /// What recfile_close_path does, by its steps, so that it can be tried again. A side file that then still stands there
    /// has the old pages, and would be made anew of half new ones; a file that is new and wasn't written whole has no page.
    fn write(&mut self) -> Result<()> {
        let (path, descriptor) = match &self.place {
            Some((path, descriptor)) => (path.as_ptr(), *descriptor),
            None => return Ok(()),
        };
        let mut failure = sys::Failure { call: null(), error: 0 };
        let mut status = sys::OK;
        // SAFETY: the handle is closed and has its steps; the path and the descriptor are those of its opening.
        unsafe {
            if self.has_failed && !self.is_new {
                status = sys::recfile_restore(path, descriptor, &mut failure);
            }
            if status == sys::OK {
                status = sys::recfile_carry_out_kept(self.at(), path, descriptor, &mut failure);
            }
        }
        self.has_failed = status != sys::OK;
        if self.has_failed && self.is_new {
            empty(descriptor);
        }
        match status {
            sys::OK => Ok(()),
            other => Err(Error::of_file(other, &sys::Detail::default(), &failure)),
        }
    }

    /// Takes back the transactions that were forgotten, or whose backing out stopped.
    fn end_forgotten(&self) -> Result<()> {
        let mut begun = 0;
        // SAFETY: the handle is one, and `begun` is written to.
        self.done(unsafe { sys::recfile_begun(self.at(), &mut begun) })?;
        (1..=begun).try_for_each(|number| Transaction::end_number(self, number))
    }
}

/// Cuts a file to no byte. Where even that fails, it stays half written: nobody has read it yet.
fn empty(descriptor: c_int) {
    // SAFETY: the descriptor is an open one, and isn't closed here.
    let file = ManuallyDrop::new(unsafe { fs::File::from_raw_fd(descriptor) });
    let _ = file.set_len(0);
}

impl Drop for File {
    fn drop(&mut self) {
        if !self.is_done && self.finish().is_err() {
            self.give_up();
        }
        // SAFETY: the handle is one, and freed once.
        unsafe { sys::recfile_free(self.at()) };
    }
}

impl fmt::Debug for File {
    fn fmt(&self, to: &mut fmt::Formatter<'_>) -> fmt::Result {
        to.debug_struct("File").field("path", &self.place.as_ref().map(|it| &it.0)).finish()
    }
}

/// A file whose closing failed. Where it is dropped, it is tried once more.
#[derive(Debug)]
pub struct Unclosed {
    file: File,
    cause: Error,
}

impl Unclosed {
    /// Why.
    pub fn cause(&self) -> &Error {
        &self.cause
    }

    /// Tries again.
    pub fn retry(self) -> std::result::Result<(), Unclosed> {
        self.file.close()
    }

    /// Gives up what was changed, as [`File::discard`].
    pub fn discard(self) {
        self.file.discard();
    }
}

impl From<Unclosed> for Error {
    fn from(it: Unclosed) -> Error {
        it.cause
    }
}

impl fmt::Display for Unclosed {
    fn fmt(&self, to: &mut fmt::Formatter<'_>) -> fmt::Result {
        self.cause.fmt(to)
    }
}

impl std::error::Error for Unclosed {
    fn source(&self) -> Option<&(dyn std::error::Error + 'static)> {
        self.cause.source()
    }
}
