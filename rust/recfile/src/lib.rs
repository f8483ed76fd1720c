//! A keyed record file for several open units of work: each is a [`Transaction`] with savepoints, goes back to any of them
//! while the others stay open, and holds exactly the keys that its remaining changes name.
//!
//! ```
//! use recfile::{Error, File};
//! # fn main() -> recfile::Result<()> {
//! let file = File::memory()?;
//! let (first, second) = (file.begin()?, file.begin()?);
//! first.put(b"apple", b"red")?;
//! {
//!     let _savepoint = first.savepoint()?;
//!     first.put(b"plum", b"blue")?;
//! } // not released: what was put since goes back
//! second.put(b"plum", b"yellow")?;
//! match second.put(b"apple", b"green") {
//!     Err(Error::Held { owner }) => assert_eq!(owner, first.number()),
//!     other => panic!("{other:?}"),
//! }
//! first.commit()?;
//! drop(second); // backs out
//! let keys = file.entries().map(|entry| entry.map(|it| it.key)).collect::<recfile::Result<Vec<_>>>()?;
//! assert_eq!(keys, [b"apple"]);
//! # Ok(())
//! # }
//! ```
//!
//! **Work is written when the file is closed, and not before.** A process that is killed before that, or a machine that
//! stops, loses everything since the file was opened, what was committed too, and the file on the disk is the old one:
//!
//! ```
//! use recfile::{File, Options};
//! # fn main() -> recfile::Result<()> {
//! # let path = std::env::temp_dir().join(format!("recfile-doc-{}.rec", std::process::id()));
//! let file = Options::new().order(8).create(&path)?;
//! let order = file.begin()?;
//! order.put(b"apple", b"red")?;
//! order.commit()?;
//! file.close()?; // from here on it is on the disk
//! let file = File::open(&path)?;
//! assert_eq!(file.begin()?.get(b"apple")?.as_deref(), Some(&b"red"[..]));
//! # drop(file);
//! # std::fs::remove_file(&path).unwrap();
//! # Ok(())
//! # }
//! ```
//!
//! A file isn't closed while a transaction of it is there:
//!
//! ```compile_fail,E0505
//! let file = recfile::File::memory().unwrap();
//! let order = file.begin().unwrap();
//! file.close().unwrap();
//! order.commit().unwrap();
//! ```
//!
//! and is used by one thread at a time:
//!
//! ```compile_fail,E0277
//! let file = recfile::File::memory().unwrap();
//! std::thread::scope(|scope| {
//!     scope.spawn(|| file.begin().unwrap().commit());
//! });
//! ```
#![deny(unsafe_op_in_unsafe_fn, missing_docs, missing_debug_implementations)]
mod bytes;
mod entries;
mod error;
mod file;
mod options;
mod sys;
mod transaction;

pub use bytes::{Bytes, Entry, Key, Record};
pub use entries::Entries;
pub use error::{Error, Result};
pub use file::{File, Unclosed};
pub use options::Options;
pub use transaction::{Savepoint, Status, Stopped, Transaction};
