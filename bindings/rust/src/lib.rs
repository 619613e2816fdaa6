//! An index from byte keys of 0 to 64 bytes to 32-bit values, in a store of bytes that the caller lends. The calls are those of a library in Rattle, in which
//! every function is proved to meet its contract: on a store that was made or checked here, each answer is that of an ordered map from byte strings.
//!
//! ```
//! use ponybollard::{store_size, Error, Inserted, Store, NO_LIMIT};
//!
//! let mut bytes = [0; store_size(100)];
//! let mut store = Store::create(&mut bytes, NO_LIMIT)?;
//! assert_eq!(store.insert(b"1.2.840.1", 7)?, Inserted::New);
//! assert_eq!(store.insert(b"1.2.840.1", 8)?, Inserted::Replaced);
//! assert_eq!(store.get(b"1.2.840.1"), Ok(8));
//! assert_eq!(store.get(b"1.2.840.2"), Err(Error::Absent));
//! for (key, slice) in store.prefix_iter(b"1.2.")? {
//!     assert_eq!((&key[..], slice), (&b"1.2.840.1"[..], 8));
//! }
//! # Ok::<(), Error>(())
//! ```
#![no_std]
#![deny(missing_docs)]
#![deny(unsafe_code)]
#![deny(unsafe_op_in_unsafe_fn)]

#[allow(unsafe_code)]
mod calls;
mod key;
mod listing;
mod page;

use core::fmt;

pub use key::Key;
pub use listing::PrefixIter;
pub use page::{Entries, Page};

/// The longest key, prefix or after-key.
pub const KEY_LIMIT: usize = 64;
/// The most entries of a page.
pub const PAGE_LIMIT: u32 = 256;
/// The most bytes that an entry of a page takes.
pub const ENTRY_LIMIT: usize = 74;
/// The most keys of a store.
pub const MOST_KEYS: usize = 16_384;
/// A height limit that refuses no key.
pub const NO_LIMIT: u16 = 128;

/// The bytes that a store for so many keys takes, from 1 key to [`MOST_KEYS`].
///
/// ```
/// assert_eq!(ponybollard::store_size(511), 65_536);
/// ```
pub const fn store_size(keys: usize) -> usize {
    128 * (keys + 1)
}

/// Why a call was refused: the first of these, in this order, that holds. A refused call changes no byte.
#[derive(Clone, Copy, Debug, PartialEq, Eq, Hash)]
pub enum Error {
    /// The bytes are no store: too short, a wrong header, or otherwise not what the check accepts.
    Store,
    /// A key, a prefix or an after-key is longer than [`KEY_LIMIT`].
    Key,
    /// A new key, and the height limit's rule refuses it.
    Height,
    /// A new key that the height limit does not refuse, and as many keys are stored as the store has room for.
    Full,
    /// The key is not stored.
    Absent,
    /// A page's size is 0 or over [`PAGE_LIMIT`], or the output is shorter than [`ENTRY_LIMIT`] for each entry.
    Count,
    /// The bytes that a store is to be made in are fewer than 256.
    Room,
}

impl Error {
    /// The number that document and header give it.
    ///
    /// ```
    /// assert_eq!(ponybollard::Error::Absent.number(), 14);
    /// ```
    pub const fn number(self) -> u32 {
        match self {
            Error::Store => 10,
            Error::Key => 11,
            Error::Height => 12,
            Error::Full => 13,
            Error::Absent => 14,
            Error::Count => 15,
            Error::Room => 16,
        }
    }

    // By its number. The calls are proved to answer no other.
    const fn numbered(answer: u32) -> Error {
        match answer {
            11 => Error::Key,
            12 => Error::Height,
            13 => Error::Full,
            14 => Error::Absent,
            15 => Error::Count,
            16 => Error::Room,
            _ => Error::Store,
        }
    }
}

impl fmt::Display for Error {
    fn fmt(&self, f: &mut fmt::Formatter<'_>) -> fmt::Result {
        f.write_str(match self {
            Error::Store => "the bytes are no store",
            Error::Key => "a key is longer than 64 bytes",
            Error::Height => "the height limit refuses the new key",
            Error::Full => "the store is full",
            Error::Absent => "the key is not stored",
            Error::Count => "the page's size is 0 or over 256, or its output is too short",
            Error::Room => "a store takes 256 bytes or more",
        })
    }
}

impl core::error::Error for Error {}

fn done(answer: u32) -> Result<(), Error> {
    if answer == 0 {
        Ok(())
    } else {
        Err(Error::numbered(answer))
    }
}

/// What an insertion did.
#[derive(Clone, Copy, Debug, PartialEq, Eq, Hash)]
pub enum Inserted {
    /// The key is new.
    New,
    /// The key was stored, and has the new value.
    Replaced,
}

/// Whether a listing gives the key that is equal to its prefix.
#[derive(Clone, Copy, Debug, PartialEq, Eq, Hash)]
pub enum Mode {
    /// It does not.
    Plain,
    /// It does, first.
    Inclusive,
}

/// A store in lent bytes. It was made here or passed the check, and every call keeps it so: while it lives, [`Error::Store`] cannot come.
pub struct Store<'a> {
    bytes: &'a mut [u8],
}

impl<'a> Store<'a> {
    /// A new, empty store, whatever the bytes held, with a height limit. [`Error::Room`] where they are fewer than 256.
    ///
    /// ```
    /// use ponybollard::{Error, Store, NO_LIMIT};
    ///
    /// assert_eq!(Store::create(&mut [0; 255], NO_LIMIT).err(), Some(Error::Room));
    /// assert!(Store::create(&mut [0; 256], NO_LIMIT)?.is_empty());
    /// # Ok::<(), Error>(())
    /// ```
    pub fn create(bytes: &'a mut [u8], limit: u16) -> Result<Store<'a>, Error> {
        done(calls::create(bytes, limit))?;
        Ok(Store { bytes })
    }

    /// The store that the bytes hold, after the check: [`Error::Store`] where it is none that the calls keep.
    ///
    /// ```
    /// use ponybollard::{Error, Store, NO_LIMIT};
    ///
    /// let mut bytes = [0; 1024];
    /// assert_eq!(Store::open(&mut bytes).err(), Some(Error::Store));
    /// Store::create(&mut bytes, NO_LIMIT)?.insert(b"key", 1)?;
    /// assert_eq!(Store::open(&mut bytes)?.get(b"key"), Ok(1));
    /// # Ok::<(), Error>(())
    /// ```
    pub fn open(bytes: &'a mut [u8]) -> Result<Store<'a>, Error> {
        done(calls::check(bytes))?;
        Ok(Store { bytes })
    }

    /// The bytes, as they are now: to write them out, say.
    pub fn as_bytes(&self) -> &[u8] {
        self.bytes
    }

    /// The most keys that it holds.
    ///
    /// ```
    /// use ponybollard::{store_size, Store, NO_LIMIT};
    ///
    /// let mut bytes = [0; store_size(100)];
    /// assert_eq!(Store::create(&mut bytes, NO_LIMIT)?.capacity(), 100);
    /// # Ok::<(), ponybollard::Error>(())
    /// ```
    pub fn capacity(&self) -> usize {
        (self.bytes.len().saturating_sub(128) / 128).min(MOST_KEYS)
    }

    /// The whole check once more: it is proved to pass.
    pub fn check(&self) -> Result<(), Error> {
        done(calls::check(self.bytes))
    }

    /// Whether no key is stored.
    ///
    /// ```
    /// use ponybollard::{Store, NO_LIMIT};
    ///
    /// let mut bytes = [0; 256];
    /// let mut store = Store::create(&mut bytes, NO_LIMIT)?;
    /// store.insert(b"x", 1)?;
    /// assert!(!store.is_empty());
    /// store.remove(b"x")?;
    /// assert!(store.is_empty());
    /// # Ok::<(), ponybollard::Error>(())
    /// ```
    pub fn is_empty(&self) -> bool {
        calls::is_empty(self.bytes).1
    }

    /// Another height limit, from 0 to 65,535. It changes nothing that is stored.
    ///
    /// ```
    /// use ponybollard::{store_size, Error, Store};
    ///
    /// let mut bytes = [0; store_size(2)];
    /// let mut store = Store::create(&mut bytes, 0)?;
    /// store.insert(b"x", 1)?;
    /// assert_eq!(store.insert(b"y", 2), Err(Error::Height));
    /// store.set_limit(1)?;
    /// assert!(store.insert(b"y", 2).is_ok());
    /// assert_eq!(store.check(), Ok(()));
    /// # Ok::<(), Error>(())
    /// ```
    pub fn set_limit(&mut self, limit: u16) -> Result<(), Error> {
        done(calls::set_limit(self.bytes, limit))
    }

    /// Stores a key with its value; a stored key gets the new value. [`Error::Key`], [`Error::Height`] or [`Error::Full`], of which the latter two are for
    /// new keys only.
    ///
    /// ```
    /// use ponybollard::{Error, Inserted, Store, NO_LIMIT};
    ///
    /// let mut bytes = [0; 256];
    /// let mut store = Store::create(&mut bytes, NO_LIMIT)?;
    /// assert_eq!(store.insert(b"x", 1), Ok(Inserted::New));
    /// assert_eq!(store.insert(b"y", 2), Err(Error::Full));
    /// assert_eq!(store.insert(b"x", 3), Ok(Inserted::Replaced));
    /// assert_eq!(store.insert(&[0; 65], 4), Err(Error::Key));
    /// # Ok::<(), Error>(())
    /// ```
    pub fn insert(&mut self, key: &[u8], value: u32) -> Result<Inserted, Error> {
        match calls::insert(self.bytes, key, value) {
            0 => Ok(Inserted::New),
            1 => Ok(Inserted::Replaced),
            refused => Err(Error::numbered(refused)),
        }
    }

    /// The value of a stored key. [`Error::Absent`] or [`Error::Key`].
    pub fn get(&self, key: &[u8]) -> Result<u32, Error> {
        let (answer, value) = calls::get(self.bytes, key);
        done(answer)?;
        Ok(value)
    }

    /// Gives a stored key another value, and stores no new one. [`Error::Absent`] or [`Error::Key`].
    ///
    /// ```
    /// use ponybollard::{Error, Store, NO_LIMIT};
    ///
    /// let mut bytes = [0; 256];
    /// let mut store = Store::create(&mut bytes, NO_LIMIT)?;
    /// assert_eq!(store.overwrite(b"x", 1), Err(Error::Absent));
    /// store.insert(b"x", 1)?;
    /// assert_eq!(store.overwrite(b"x", 2), Ok(()));
    /// assert_eq!(store.get(b"x"), Ok(2));
    /// # Ok::<(), Error>(())
    /// ```
    pub fn overwrite(&mut self, key: &[u8], value: u32) -> Result<(), Error> {
        done(calls::overwrite(self.bytes, key, value))
    }

    /// Takes a stored key out. [`Error::Absent`] or [`Error::Key`].
    pub fn remove(&mut self, key: &[u8]) -> Result<(), Error> {
        done(calls::remove(self.bytes, key))
    }

    /// The keys that start with a prefix, and their values, in rising order. The key that is equal to the prefix is left out, unless
    /// [`PrefixIter::include_prefix`] is called. [`Error::Key`] where the prefix is too long.
    ///
    /// ```
    /// use ponybollard::{store_size, Store, NO_LIMIT};
    ///
    /// let mut bytes = [0; store_size(3)];
    /// let mut store = Store::create(&mut bytes, NO_LIMIT)?;
    /// for (slice, key) in ["1.2", "1.2.9", "1.2.10"].iter().enumerate() {
    ///     store.insert(key.as_bytes(), slice as u32)?;
    /// }
    /// assert!(store.prefix_iter(b"1.2")?.map(|e| e.1).eq([2, 1]));
    /// assert!(store.prefix_iter(b"1.2")?.include_prefix().map(|e| e.1).eq([0, 2, 1]));
    /// # Ok::<(), ponybollard::Error>(())
    /// ```
    pub fn prefix_iter(&self, prefix: &[u8]) -> Result<PrefixIter<'_>, Error> {
        PrefixIter::new(self.bytes, prefix)
    }

    /// The first `size` entries of a listing, written into `out`.
    ///
    /// ```
    /// use ponybollard::{store_size, Mode, Store, ENTRY_LIMIT, NO_LIMIT};
    ///
    /// let mut bytes = [0; store_size(3)];
    /// let mut store = Store::create(&mut bytes, NO_LIMIT)?;
    /// for (slice, key) in [b"a", b"b", b"c"].iter().enumerate() {
    ///     store.insert(*key, slice as u32)?;
    /// }
    /// let mut out = [0; 2 * ENTRY_LIMIT];
    /// let page = store.first_page(b"", Mode::Plain, 2, &mut out)?;
    /// assert!(page.entries().eq([(&b"a"[..], 0), (&b"b"[..], 1)]));
    /// assert!(!page.is_end());
    /// // Anything may happen to the store between two pages: no key that stays is lost or given twice.
    /// store.remove(b"b")?;
    /// let page = store.next_page(b"", Mode::Plain, b"b", 2, &mut out)?;
    /// assert!(page.entries().eq([(&b"c"[..], 2)]));
    /// assert!(page.is_end());
    /// # Ok::<(), ponybollard::Error>(())
    /// ```
    pub fn first_page<'o>(&self, prefix: &[u8], mode: Mode, size: u32, out: &'o mut [u8]) -> Result<Page<'o>, Error> {
        let given = calls::first_page(self.bytes, prefix, mode == Mode::Inclusive, size, out);
        Page::of(given, out)
    }

    /// The next entries of a listing: those above `after`, which is any key, stored or not; the last key of the page before, as a rule.
    pub fn next_page<'o>(&self, prefix: &[u8], mode: Mode, after: &[u8], size: u32, out: &'o mut [u8]) -> Result<Page<'o>, Error> {
        let given = calls::next_page(self.bytes, prefix, mode == Mode::Inclusive, after, size, out);
        Page::of(given, out)
    }
}

/// The stored keys and their values, as a map.
impl fmt::Debug for Store<'_> {
    fn fmt(&self, f: &mut fmt::Formatter<'_>) -> fmt::Result {
        let all = PrefixIter::new(self.bytes, b"").map_err(|_| fmt::Error)?;
        f.debug_map().entries(all.include_prefix()).finish()
    }
}
