//! A page of a listing, and its entries.
use crate::calls::Given;
use crate::{done, Error};
use core::iter::FusedIterator;

/// The entries of a page, which lie in the output that it was written to.
#[derive(Clone, Copy, Debug)]
pub struct Page<'o> {
    fields: &'o [u8],
    count: usize,
    end: bool,
}

impl<'o> Page<'o> {
    pub(crate) fn of(given: Given, out: &'o [u8]) -> Result<Page<'o>, Error> {
        done(given.answer)?;
        Ok(Page {
            fields: out.get(..given.bytes).unwrap_or_default(),
            count: given.entries,
            end: given.end,
        })
    }

    /// The number of entries.
    pub fn len(&self) -> usize {
        self.count
    }

    /// Whether it has no entry.
    pub fn is_empty(&self) -> bool {
        self.count == 0
    }

    /// Whether no further entry was stored when the page was fetched.
    pub fn is_end(&self) -> bool {
        self.end
    }

    /// The entries' bytes as they were written: for each a field 01 with the key and a field 02 with the value, the higher byte first.
    pub fn as_bytes(&self) -> &'o [u8] {
        self.fields
    }

    /// The last key, after which the next page begins.
    pub fn last_key(&self) -> Option<&'o [u8]> {
        self.entries().last().map(|e| e.0)
    }

    /// Each key with its value.
    pub fn entries(&self) -> Entries<'o> {
        Entries { rest: self.fields }
    }
}

impl<'o> IntoIterator for Page<'o> {
    type Item = (&'o [u8], u32);
    type IntoIter = Entries<'o>;

    fn into_iter(self) -> Entries<'o> {
        self.entries()
    }
}

/// The keys and values of a page.
#[derive(Clone, Debug)]
pub struct Entries<'o> {
    rest: &'o [u8],
}

// An entry of a page: 01, the key's length in two bytes, the key, 02, 00 04, the value in four bytes. Its key, its value, and what comes behind it.
pub(crate) fn entry(fields: &[u8]) -> Option<(&[u8], u32, &[u8])> {
    let (head, rest) = fields.split_at_checked(3)?;
    let (key, rest) = rest.split_at_checked(u16::from_be_bytes([head[1], head[2]]) as usize)?;
    let (value, rest) = rest.split_at_checked(7)?;
    Some((key, u32::from_be_bytes([value[3], value[4], value[5], value[6]]), rest))
}

impl<'o> Iterator for Entries<'o> {
    type Item = (&'o [u8], u32);

    fn next(&mut self) -> Option<(&'o [u8], u32)> {
        let (key, value, rest) = entry(self.rest)?;
        self.rest = rest;
        Some((key, value))
    }
}

impl FusedIterator for Entries<'_> {}
