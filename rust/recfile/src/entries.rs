use crate::bytes::{Entry, Key};
use crate::file::File;
use crate::Result;
use std::fmt;
use std::iter::FusedIterator;
use std::ops::{Bound, RangeBounds};
use std::vec;

/// How many entries are read at a time.
const AT_A_TIME: u32 = 64;

/// Where an end of a range goes on: at a key, or past it; without one at the end of the order.
#[derive(Clone, Copy)]
struct End {
    key: Option<Key>,
    at_key: bool,
}

impl End {
    /// Nothing lies between a key of the greatest length and longer bytes that begin with it.
    fn of(bytes: &[u8], at_key: bool, at_front: bool) -> End {
        End { key: Key::front_of(bytes), at_key: if bytes.len() > Key::WIDTH { at_front } else { at_key } }
    }
}

/// The records of a file whose keys are in a range, in key order.
///
/// They are read some at a time, from the key on that came last at that end: a record that is put or taken out meanwhile may be
/// among them or not, and each key comes once. A transaction that needs them to stay claims them; a new key may still come
/// between. After an error there are no more.
#[derive(Clone)]
pub struct Entries<'a> {
    file: &'a File,
    low: End,
    high: End,
    rising: vec::IntoIter<Entry>,
    falling: vec::IntoIter<Entry>,
    is_done: bool,
}

impl<'a> Entries<'a> {
    pub(crate) fn new<K: AsRef<[u8]>, R: RangeBounds<K>>(file: &'a File, keys: &R) -> Entries<'a> {
        let (everywhere, mut is_done) = (End { key: None, at_key: true }, false);
        let low = match keys.start_bound() {
            Bound::Included(low) => End::of(low.as_ref(), true, false),
            Bound::Excluded(low) => End::of(low.as_ref(), false, false),
            Bound::Unbounded => everywhere,
        };
        let high = match keys.end_bound() {
            Bound::Included(high) | Bound::Excluded(high) if high.as_ref().is_empty() => {
                is_done = true;
                everywhere
            }
            Bound::Included(high) => End::of(high.as_ref(), true, true),
            Bound::Excluded(high) => End::of(high.as_ref(), false, true),
            Bound::Unbounded => everywhere,
        };
        let (rising, falling) = (Vec::new().into_iter(), Vec::new().into_iter());
        Entries { file, low, high, rising, falling, is_done }
    }

    fn is_within(&self, key: &[u8]) -> bool {
        let above = self.low.key.map_or(true, |low| *key > *low || self.low.at_key && *key == *low);
        above && self.high.key.map_or(true, |high| *key < *high || self.high.at_key && *key == *high)
    }

    /// The next entry from one end, where it is within what the other has left.
    fn step(&mut self, is_down: bool) -> Option<Result<Entry>> {
        let (end, read) = if is_down { (self.high, &mut self.falling) } else { (self.low, &mut self.rising) };
        if self.is_done {
            return None;
        }
        let mut next = read.next();
        if next.is_none() {
            match self.file.some_from(end.key.as_deref().unwrap_or_default(), end.at_key, is_down, AT_A_TIME) {
                Ok(some) => *read = some.into_iter(),
                Err(error) => {
                    self.is_done = true;
                    return Some(Err(error));
                }
            }
            next = read.next();
        }
        let entry = next.filter(|entry| self.is_within(&entry.key));
        match entry {
            None => self.is_done = true,
            Some(entry) => {
                let met = End { key: Some(entry.key), at_key: false };
                *(if is_down { &mut self.high } else { &mut self.low }) = met;
            }
        }
        entry.map(Ok)
    }
}

impl Iterator for Entries<'_> {
    type Item = Result<Entry>;

    fn next(&mut self) -> Option<Result<Entry>> {
        self.step(false)
    }
}

impl DoubleEndedIterator for Entries<'_> {
    fn next_back(&mut self) -> Option<Result<Entry>> {
        self.step(true)
    }
}

impl FusedIterator for Entries<'_> {}

impl fmt::Debug for Entries<'_> {
    fn fmt(&self, to: &mut fmt::Formatter<'_>) -> fmt::Result {
        to.debug_struct("Entries").field("low", &self.low.key).field("high", &self.high.key).finish()
    }
}
