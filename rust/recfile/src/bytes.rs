use std::fmt;
use std::ops::Deref;

/// At most N bytes, as a value.
#[derive(Clone, Copy)]
pub struct Bytes<const N: usize> {
    bytes: [u8; N],
    len: u8,
}

/// A key, of 1 to 16 bytes.
pub type Key = Bytes<16>;
/// A record, of 0 to 100 bytes.
pub type Record = Bytes<100>;

impl<const N: usize> Bytes<N> {
    pub(crate) fn new(bytes: [u8; N], len: u8) -> Bytes<N> {
        Bytes { bytes, len }
    }
}

impl Bytes<16> {
    pub(crate) const WIDTH: usize = 16;

    /// The first bytes, as many as a key may have; none of none.
    pub(crate) fn front_of(bytes: &[u8]) -> Option<Key> {
        let len = bytes.len().min(Key::WIDTH);
        let mut front = [0; Key::WIDTH];
        front[..len].copy_from_slice(&bytes[..len]);
        (len > 0).then_some(Key::new(front, len as u8))
    }
}

impl<const N: usize> Deref for Bytes<N> {
    type Target = [u8];

    fn deref(&self) -> &[u8] {
        &self.bytes[..usize::from(self.len).min(N)]
    }
}

impl<const N: usize> AsRef<[u8]> for Bytes<N> {
    fn as_ref(&self) -> &[u8] {
        self
    }
}

impl<const N: usize> fmt::Debug for Bytes<N> {
    fn fmt(&self, to: &mut fmt::Formatter<'_>) -> fmt::Result {
        write!(to, "b\"{}\"", self.escape_ascii())
    }
}

impl<const N: usize, T: AsRef<[u8]> + ?Sized> PartialEq<T> for Bytes<N> {
    fn eq(&self, other: &T) -> bool {
        **self == *other.as_ref()
    }
}

impl<const N: usize> Eq for Bytes<N> {}

/// A record in a list.
#[derive(Clone, Copy, Debug)]
pub struct Entry {
    /// Its key.
    pub key: Key,
    /// The record, also where it may yet go back.
    pub record: Record,
    /// The open transaction that owns the key.
    pub owner: Option<u32>,
}
