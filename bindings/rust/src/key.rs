//! A key by value.
use crate::KEY_LIMIT;
use core::{cmp, fmt, hash, ops};

/// A key of up to [`KEY_LIMIT`] bytes, by value. It is used as the slice of its bytes.
#[derive(Clone, Copy)]
pub struct Key {
    bytes: [u8; KEY_LIMIT],
    len: usize,
}

impl Key {
    // None where there are too many bytes.
    pub(crate) fn of(bytes: &[u8]) -> Option<Key> {
        let mut key = Key {
            bytes: [0; KEY_LIMIT],
            len: bytes.len(),
        };
        key.bytes.get_mut(..bytes.len())?.copy_from_slice(bytes);
        Some(key)
    }
}

impl ops::Deref for Key {
    type Target = [u8];

    fn deref(&self) -> &[u8] {
        &self.bytes[..self.len]
    }
}

impl AsRef<[u8]> for Key {
    fn as_ref(&self) -> &[u8] {
        self
    }
}

impl PartialEq for Key {
    fn eq(&self, other: &Key) -> bool {
        **self == **other
    }
}

impl Eq for Key {}

impl PartialOrd for Key {
    fn partial_cmp(&self, other: &Key) -> Option<cmp::Ordering> {
        Some(self.cmp(other))
    }
}

impl Ord for Key {
    fn cmp(&self, other: &Key) -> cmp::Ordering {
        (**self).cmp(&**other)
    }
}

impl hash::Hash for Key {
    fn hash<H: hash::Hasher>(&self, state: &mut H) {
        (**self).hash(state);
    }
}

/// As a byte string, with what is not printable escaped.
impl fmt::Debug for Key {
    fn fmt(&self, f: &mut fmt::Formatter<'_>) -> fmt::Result {
        write!(f, "b\"{}\"", self.escape_ascii())
    }
}
