use crate::bytes::{Bytes, Key, Record};
use crate::file::File;
use crate::{sys, Error, Result};
use std::cell::{Cell, RefCell};
use std::fmt;
use std::mem::{ManuallyDrop, MaybeUninit};

/// What an open transaction is doing.
#[derive(Clone, Copy, Debug, PartialEq, Eq)]
pub struct Status {
    /// A rollback of it stopped.
    pub is_rolling: bool,
    /// It ends with that rollback.
    pub ends: bool,
    /// How many savepoints it has.
    pub savepoints: u32,
    /// How many changes it has made that weren't taken back.
    pub live: u32,
    /// How many changes that rollback has left.
    pub left: u32,
}

/// An open transaction. Where it is dropped, its changes go back.
///
/// Where a rollback stopped, records are looked up and changed, savepoints set and the transaction ended after
/// [`Transaction::resume`] alone: before it they answer `Rolling`.
pub struct Transaction<'f> {
    file: &'f File,
    number: u32,
    /// The savepoints that are there, from 1 on, each with a name of its own: the library gives a number again once it is
    /// free.
    savepoints: RefCell<Vec<u64>>,
    names: Cell<u64>,
}

/// Calls the library for a record: what it told, or the status with its detail.
macro_rules! record_call {
    ($self:ident, $call:ident($($word:expr),*)) => {{
        let mut told = MaybeUninit::<sys::Found>::uninit();
        let mut detail = MaybeUninit::<sys::Detail>::uninit();
        // SAFETY: the handle is one; slices are valid for their length; the library writes both answers at any status.
        unsafe {
            match sys::$call($self.file.at(), $self.number, $($word,)* told.as_mut_ptr(), detail.as_mut_ptr()) {
                sys::OK => {
                    let told = told.assume_init();
                    Ok((told.is_there != 0).then(|| Bytes::new(told.bytes, told.len)))
                }
                other => Err((other, detail.assume_init())),
            }
        }
    }};
}

fn fault((status, detail): (i32, sys::Detail)) -> Error {
    Error::of(status, &detail)
}

impl<'f> Transaction<'f> {
    pub(crate) fn new(file: &'f File, number: u32) -> Transaction<'f> {
        Transaction { file, number, savepoints: RefCell::new(Vec::new()), names: Cell::new(0) }
    }

    /// Takes a transaction back by its number, where one has that: nothing stands for it any more.
    pub(crate) fn end_number(file: &File, number: u32) -> Result<()> {
        let forgotten = ManuallyDrop::new(Transaction::new(file, number));
        let status = match forgotten.status() {
            Ok(status) => status,
            Err(_) => return Ok(()),
        };
        if status.is_rolling {
            forgotten.resume()?;
        }
        if !status.ends {
            forgotten.back_out()?;
        }
        Ok(())
    }

    /// Its number, as [`Error::Held`] and [`Entry`](crate::Entry) tell it.
    pub fn number(&self) -> u32 {
        self.number
    }

    /// Puts a record: the one that stood there. Errors: `EmptyKey`, `LongKey`, `LongRecord`, `Held`, `LogFull`, `Full`,
    /// `Memory`.
    #[inline]
    pub fn put(&self, key: &[u8], record: &[u8]) -> Result<Option<Record>> {
        record_call!(self, recfile_put(key.as_ptr(), key.len(), record.as_ptr(), record.len())).map_err(fault)
    }

    /// Looks a record up. Errors: `EmptyKey`, `LongKey`, `Held`.
    #[inline]
    pub fn get(&self, key: &[u8]) -> Result<Option<Record>> {
        record_call!(self, recfile_get(key.as_ptr(), key.len())).map_err(fault)
    }

    /// Takes a record out: the one that stood there, and `None` where none did. Errors: as of a put.
    #[inline]
    pub fn remove(&self, key: &[u8]) -> Result<Option<Record>> {
        match record_call!(self, recfile_remove(key.as_ptr(), key.len())) {
            Err((sys::ABSENT, _)) => Ok(None),
            other => other.map_err(fault),
        }
    }

    /// Takes the key and leaves its record, so that no other transaction changes or reads it: what stands there. Errors: as
    /// of a put.
    #[inline]
    pub fn claim(&self, key: &[u8]) -> Result<Option<Record>> {
        record_call!(self, recfile_claim(key.as_ptr(), key.len())).map_err(fault)
    }

    /// The keys that it owns, in order. Errors: `Memory`.
    pub fn held(&self) -> Result<Vec<Key>> {
        let mut count = 0;
        // SAFETY: the handle is one, and `count` is written to.
        self.file.done(unsafe { sys::recfile_keys_of(self.file.at(), self.number, &mut count) })?;
        let mut out = Vec::new();
        out.try_reserve(count as usize).map_err(|_| Error::Memory)?;
        for i in 0..count {
            let mut told = sys::KeyBytes { bytes: [0; 16], len: 0 };
            // SAFETY: as above.
            self.file.done(unsafe { sys::recfile_key(self.file.at(), i, &mut told) })?;
            out.push(Bytes::new(told.bytes, told.len));
        }
        Ok(out)
    }

    /// What it is doing.
    pub fn status(&self) -> Result<Status> {
        let mut told = sys::TxStatus::default();
        // SAFETY: the handle is one, and `told` is written to.
        self.file.done(unsafe { sys::recfile_status(self.file.at(), self.number, &mut told) })?;
        Ok(Status {
            is_rolling: told.is_rolling != 0,
            ends: told.ends != 0,
            savepoints: told.saves,
            live: told.live,
            left: told.left,
        })
    }

    /// Sets a savepoint, to which the transaction goes back where it is dropped before it is released. Errors: `TooDeep`.
    pub fn savepoint(&self) -> Result<Savepoint<'_, 'f>> {
        let mut number = 0;
        // SAFETY: the handle is one, and `number` is written to.
        self.file.done(unsafe { sys::recfile_savepoint(self.file.at(), self.number, &mut number) })?;
        let name = self.names.get() + 1;
        self.names.set(name);
        let mut savepoints = self.savepoints.borrow_mut();
        savepoints.truncate(number as usize - 1);
        savepoints.push(name);
        Ok(Savepoint { transaction: self, number, name })
    }

    fn roll(&self, call: impl Fn(*mut sys::recfile, *mut u32, *mut sys::Detail) -> i32) -> Result<u32> {
        let (mut undone, mut detail) = (0, sys::Detail::default());
        match call(self.file.at(), &mut undone, &mut detail) {
            sys::OK => Ok(undone),
            other => Err(Error::of(other, &detail)),
        }
    }

    fn back_to(&self, number: u32) -> Result<u32> {
        // SAFETY: the handle is one; the rest is written to.
        let undone = self.roll(|file, undone, detail| unsafe {
            sys::recfile_rollback_to(file, self.number, number, undone, detail)
        });
        if !matches!(undone, Err(Error::Rolling)) {
            self.savepoints.borrow_mut().truncate(number as usize);
        }
        undone
    }

    /// Takes back all, and stays open: how many changes. Errors: `Stopped`.
    pub fn rollback(&self) -> Result<u32> {
        self.back_to(0)
    }

    /// Goes on with a rollback that stopped: how many changes it took back. One of [`Transaction::abort`] is gone on with
    /// by [`Stopped::resume`]. Errors: `Stopped`, `NotRolling`.
    pub fn resume(&self) -> Result<u32> {
        // SAFETY: the handle is one; the rest is written to.
        self.roll(|file, undone, detail| unsafe { sys::recfile_resume(file, self.number, undone, detail) })
    }

    fn back_out(&self) -> Result<u32> {
        // SAFETY: as above.
        self.roll(|file, undone, detail| unsafe { sys::recfile_abort(file, self.number, undone, detail) })
    }

    /// Takes back all, and ends: how many changes.
    pub fn abort(self) -> std::result::Result<u32, Stopped<'f>> {
        let undone = self.back_out();
        Stopped::unless_ended(self, undone)
    }

    /// Ends; the changes stay, and are on the disk when the file is closed.
    pub fn commit(self) -> Result<()> {
        // SAFETY: the handle is one.
        self.file.done(unsafe { sys::recfile_commit(self.file.at(), self.number) })?;
        self.forget();
        Ok(())
    }

    /// It has ended, and there is nothing to take back.
    fn forget(self) {
        drop(ManuallyDrop::new(self).savepoints.take());
    }
}

impl Drop for Transaction<'_> {
    fn drop(&mut self) {
        // One that stops is gone on with when the file is closed.
        let _ = Transaction::end_number(self.file, self.number);
    }
}

impl fmt::Debug for Transaction<'_> {
    fn fmt(&self, to: &mut fmt::Formatter<'_>) -> fmt::Result {
        write!(to, "Transaction({})", self.number)
    }
}

/// An abort that stopped, with its transaction, which owns the keys of what is left.
#[derive(Debug)]
pub struct Stopped<'f> {
    transaction: Transaction<'f>,
    cause: Error,
}

impl<'f> Stopped<'f> {
    fn unless_ended(transaction: Transaction<'f>, undone: Result<u32>) -> std::result::Result<u32, Stopped<'f>> {
        match undone {
            Ok(count) => {
                transaction.forget();
                Ok(count)
            }
            Err(cause) => Err(Stopped { transaction, cause }),
        }
    }

    /// What the call answered: [`Error::Stopped`], or [`Error::Rolling`] where a rollback had stopped before.
    pub fn cause(&self) -> &Error {
        &self.cause
    }

    /// Goes on, and ends: how many changes were taken back.
    pub fn resume(self) -> std::result::Result<u32, Stopped<'f>> {
        let ends = matches!(self.transaction.status(), Ok(status) if status.ends);
        let mut undone = self.transaction.resume();
        if !ends {
            undone = undone.and_then(|count| Ok(count + self.transaction.back_out()?));
        }
        Stopped::unless_ended(self.transaction, undone)
    }
}

impl From<Stopped<'_>> for Error {
    fn from(it: Stopped<'_>) -> Error {
        it.cause
    }
}

impl fmt::Display for Stopped<'_> {
    fn fmt(&self, to: &mut fmt::Formatter<'_>) -> fmt::Result {
        self.cause.fmt(to)
    }
}

impl std::error::Error for Stopped<'_> {
    fn source(&self) -> Option<&(dyn std::error::Error + 'static)> {
        self.cause.source()
    }
}

/// A place in a transaction. Where it is dropped, all since it goes back; [`Savepoint::release`] keeps it.
#[derive(Debug)]
#[must_use = "a savepoint that is dropped goes back at once"]
pub struct Savepoint<'t, 'f> {
    transaction: &'t Transaction<'f>,
    number: u32,
    name: u64,
}

impl Savepoint<'_, '_> {
    fn is_there(&self) -> bool {
        self.transaction.savepoints.borrow().get(self.number as usize - 1) == Some(&self.name)
    }

    /// Takes back all since it; it stays: how many changes. Errors: `NoSuchSavepoint`, `Stopped`.
    pub fn rollback(&self) -> Result<u32> {
        if !self.is_there() {
            return Err(Error::NoSuchSavepoint);
        }
        self.transaction.back_to(self.number)
    }

    /// Drops it and those above it; the changes stay. Errors: `NoSuchSavepoint`.
    pub fn release(self) -> Result<()> {
        let kept = ManuallyDrop::new(self);
        if !kept.is_there() {
            return Err(Error::NoSuchSavepoint);
        }
        kept.drop_it()
    }

    fn drop_it(&self) -> Result<()> {
        let transaction = self.transaction;
        transaction.savepoints.borrow_mut().truncate(self.number as usize - 1);
        // SAFETY: the handle is one.
        let status = unsafe { sys::recfile_release(transaction.file.at(), transaction.number, self.number) };
        transaction.file.done(status)
    }
}

impl Drop for Savepoint<'_, '_> {
    fn drop(&mut self) {
        if self.is_there() && self.transaction.back_to(self.number).is_ok() {
            let _ = self.drop_it();
        }
    }
}
