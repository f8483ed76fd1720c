use crate::sys;
use std::ffi::CStr;
use std::{fmt, io};

/// What a call answers where it hasn't the result. All but [`Error::Stopped`] have changed nothing.
#[derive(Debug)]
#[non_exhaustive]
pub enum Error {
    /// Another open transaction owns the key: ask again when it has ended or gone back.
    Held {
        /// Its number.
        owner: u32,
    },
    /// A key has at least one byte.
    EmptyKey,
    /// A key has at most 16 bytes.
    LongKey,
    /// A record has at most 100 bytes.
    LongRecord,
    /// As many transactions were begun as may be: close the file and open it again.
    BeginsSpent,
    /// Taking the change back might need more log than there may be: end, or close the file and open it again.
    LogFull,
    /// There would be more records and owned keys than there may be.
    Full,
    /// The transaction has 32 savepoints: release one.
    TooDeep,
    /// The savepoint was released, or a rollback went behind it.
    NoSuchSavepoint,
    /// A rollback of the transaction stopped: resume it first.
    Rolling,
    /// No rollback of the transaction stopped.
    NotRolling,
    /// A rollback stopped, and can be resumed. Until then the transaction owns the keys of what is left.
    Stopped {
        /// How many changes it took back.
        undone: u32,
        /// How many it has left.
        left: u32,
        /// Why.
        cause: Box<Error>,
    },
    /// Memory was refused.
    Memory,
    /// A page isn't what a file wrote.
    Damaged {
        /// Its number.
        page: u32,
    },
    /// A limit or an order that no file has: the text says which may be.
    BadLimit(&'static str),
    /// So many transactions have not ended.
    StillOpen {
        /// How many.
        left: u32,
    },
    /// The file isn't one, or isn't whole: the text says what was found first.
    NotARecordFile(&'static str),
    /// The side file beside the file isn't one of it.
    BadJournal,
    /// Another program, or another handle of this one, has the file open.
    Locked,
    /// A call of the system's failed.
    Device {
        /// Which.
        call: &'static str,
        /// How.
        source: io::Error,
    },
    /// After a fork the file is the parent's, and the child writes nothing.
    WrongProcess,
    /// A status that this crate doesn't know.
    Other(i32),
}

/// The answer of most calls.
pub type Result<T> = std::result::Result<T, Error>;

/// What the library says of a status.
fn text(status: i32) -> &'static str {
    // SAFETY: the library answers a text of its own for any number.
    unsafe { CStr::from_ptr(sys::recfile_status_text(status)) }.to_str().unwrap_or("")
}

impl Error {
    /// Of a status that isn't OK, with what it carries.
    pub(crate) fn of(status: i32, detail: &sys::Detail) -> Error {
        match status {
            sys::EMPTY_KEY => Error::EmptyKey,
            sys::LONG_KEY => Error::LongKey,
            sys::LONG_RECORD => Error::LongRecord,
            sys::BEGINS_SPENT => Error::BeginsSpent,
            sys::ROLLING => Error::Rolling,
            sys::NOT_ROLLING => Error::NotRolling,
            sys::HELD => Error::Held { owner: detail.owner },
            sys::LOG_FULL => Error::LogFull,
            sys::DAMAGED => Error::Damaged { page: detail.page },
            sys::FULL | sys::TOO_MANY_RECORDS => Error::Full,
            sys::TOO_DEEP => Error::TooDeep,
            sys::NO_SUCH_SAVE => Error::NoSuchSavepoint,
            sys::STOPPED => Error::Stopped {
                undone: detail.undone,
                left: detail.left,
                cause: Box::new(Error::of(detail.cause, detail)),
            },
            sys::MEMORY => Error::Memory,
            sys::BAD_RECORDS | sys::BAD_LOG | sys::BAD_BEGINS | sys::BAD_ORDER => Error::BadLimit(text(status)),
            sys::STILL_OPEN => Error::StillOpen { left: detail.left },
            sys::BAD_LENGTH | sys::BAD_MAGIC | sys::BAD_VERSION => Error::NotARecordFile(text(status)),
            sys::NOT_CLEAN | sys::BAD_HEADER | sys::WRONG_COUNT => Error::NotARecordFile(text(status)),
            sys::BAD_JOURNAL => Error::BadJournal,
            other => Error::Other(other),
        }
    }

    /// The same of a call that works on a file of the system's.
    pub(crate) fn of_file(status: i32, detail: &sys::Detail, failure: &sys::Failure) -> Error {
        if status != sys::DEVICE || failure.call.is_null() {
            return Error::of(status, detail);
        }
        // SAFETY: a name of the library's own.
        let call = unsafe { CStr::from_ptr(failure.call) }.to_str().unwrap_or("");
        let source = io::Error::from_raw_os_error(failure.error);
        if call == "flock" && source.kind() == io::ErrorKind::WouldBlock {
            Error::Locked
        } else {
            Error::Device { call, source }
        }
    }
}

impl fmt::Display for Error {
    fn fmt(&self, to: &mut fmt::Formatter<'_>) -> fmt::Result {
        match self {
            Error::Held { owner } => write!(to, "transaction {owner} holds the key"),
            Error::EmptyKey => to.write_str(text(sys::EMPTY_KEY)),
            Error::LongKey => to.write_str(text(sys::LONG_KEY)),
            Error::LongRecord => to.write_str(text(sys::LONG_RECORD)),
            Error::BeginsSpent => to.write_str(text(sys::BEGINS_SPENT)),
            Error::LogFull => to.write_str(text(sys::LOG_FULL)),
            Error::Full => to.write_str(text(sys::FULL)),
            Error::TooDeep => to.write_str(text(sys::TOO_DEEP)),
            Error::NoSuchSavepoint => to.write_str(text(sys::NO_SUCH_SAVE)),
            Error::Rolling => to.write_str(text(sys::ROLLING)),
            Error::NotRolling => to.write_str(text(sys::NOT_ROLLING)),
            Error::Stopped { undone, left, cause } => {
                write!(to, "a rollback stopped after {undone} changes, with {left} left: {cause}")
            }
            Error::Memory => to.write_str(text(sys::MEMORY)),
            Error::Damaged { page } => write!(to, "page {page} is damaged"),
            Error::BadLimit(text) | Error::NotARecordFile(text) => to.write_str(text),
            Error::StillOpen { left } => write!(to, "{left} transactions have not ended"),
            Error::BadJournal => to.write_str(text(sys::BAD_JOURNAL)),
            Error::Locked => to.write_str("another program has the file open"),
            Error::Device { call, source } => write!(to, "{call}: {source}"),
            Error::WrongProcess => to.write_str("after a fork the file is the parent's"),
            Error::Other(status) => to.write_str(text(*status)),
        }
    }
}

impl std::error::Error for Error {
    fn source(&self) -> Option<&(dyn std::error::Error + 'static)> {
        match self {
            Error::Device { source, .. } => Some(source),
            Error::Stopped { cause, .. } => Some(cause.as_ref()),
            _ => None,
        }
    }
}
