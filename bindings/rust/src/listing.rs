//! A listing as an iterator.
use crate::page::entry;
use crate::{calls, Error, Key, ENTRY_LIMIT};
use core::fmt;
use core::iter::FusedIterator;

// The entries fetched at once.
const SIZE: usize = 16;

/// The keys under a prefix, with their values, in rising order of their bytes. It fetches pages as it goes, and takes no memory but its own.
#[derive(Clone)]
pub struct PrefixIter<'s> {
    store: &'s [u8],
    prefix: Key,
    inclusive: bool,
    // the last key given; none before the first
    last: Option<Key>,
    page: [u8; SIZE * ENTRY_LIMIT],
    // the part of the page that is not given yet
    at: usize,
    filled: usize,
    // no page comes after this one
    end: bool,
}

impl<'s> PrefixIter<'s> {
    pub(crate) fn new(store: &'s [u8], prefix: &[u8]) -> Result<PrefixIter<'s>, Error> {
        Ok(PrefixIter {
            store,
            prefix: Key::of(prefix).ok_or(Error::Key)?,
            inclusive: false,
            last: None,
            page: [0; SIZE * ENTRY_LIMIT],
            at: 0,
            filled: 0,
            end: false,
        })
    }

    /// Gives the key that is equal to the prefix, too. To be called before the first `next`: later it changes nothing.
    pub fn include_prefix(mut self) -> Self {
        if self.last.is_none() && !self.end {
            self.inclusive = true;
        }
        self
    }

    fn fetch(&mut self) {
        let size = SIZE as u32;
        let given = match &self.last {
            None => calls::first_page(self.store, &self.prefix, self.inclusive, size, &mut self.page),
            Some(last) => calls::next_page(self.store, &self.prefix, self.inclusive, last, size, &mut self.page),
        };
        // A refusal, which cannot come here, ends the listing.
        self.end = given.end || given.answer != 0;
        self.at = 0;
        self.filled = given.bytes;
    }
}

impl Iterator for PrefixIter<'_> {
    type Item = (Key, u32);

    fn next(&mut self) -> Option<(Key, u32)> {
        if self.at == self.filled {
            if self.end {
                return None;
            }
            self.fetch();
        }
        let left = self.page.get(self.at..self.filled)?;
        let (key, value, rest) = entry(left)?;
        let key = Key::of(key)?;
        self.at = self.filled - rest.len();
        self.last = Some(key);
        Some((key, value))
    }
}

impl FusedIterator for PrefixIter<'_> {}

impl fmt::Debug for PrefixIter<'_> {
    fn fmt(&self, f: &mut fmt::Formatter<'_>) -> fmt::Result {
        f.debug_struct("PrefixIter")
            .field("prefix", &self.prefix)
            .field("inclusive", &self.inclusive)
            .field("last", &self.last)
            .finish_non_exhaustive()
    }
}
