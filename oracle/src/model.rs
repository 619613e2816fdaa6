// The rules of document 01 over a sorted map. Nothing here knows records, links or bytes of a store.
use crate::script::{Call, Key, Page};
use std::collections::BTreeMap;
use std::ops::Bound;

pub const STORE: u8 = 10;
pub const KEY: u8 = 11;
pub const HEIGHT: u8 = 12;
pub const FULL: u8 = 13;
pub const ABSENT: u8 = 14;
pub const COUNT: u8 = 15;
pub const ROOM: u8 = 16;

const KEY_LIMIT: usize = 64;

#[derive(Clone, Default)]
pub struct Model {
    pub len: usize,
    pub store: Option<Store>,
}

#[derive(Clone)]
pub struct Store {
    pub capacity: usize,
    pub limit: u16,
    pub map: BTreeMap<Key, u32>,
}

// "Position 2i is the high half of byte i plus 1, position 2i+1 the low half plus 1; at or past the end the nibble is 0."
pub fn nibble(key: &[u8], position: usize) -> u8 {
    match key.get(position / 2) {
        None => 0,
        Some(b) if position % 2 == 0 => 1 + (b >> 4),
        Some(b) => 1 + (b & 15),
    }
}

// "The first position where their nibbles differ."
pub fn critical(a: &[u8], b: &[u8]) -> usize {
    (0..).find(|p| nibble(a, *p) != nibble(b, *p)).unwrap()
}

pub fn capacity(len: usize) -> usize {
    if len < 128 {
        0
    } else {
        ((len - 128) / 128).min(16384)
    }
}

impl Store {
    // The keys that agree with w before position p and have slot s there: the first and the last of them.
    fn group(&self, w: &[u8], p: usize, s: u8) -> Option<(&Key, &Key)> {
        if s == 0 && p % 2 == 1 {
            return None;
        }
        let head = &w[..p / 2];
        let (low, high) = if s == 0 {
            (head.to_vec(), [head, &[0]].concat())
        } else {
            let (first, last) = if p % 2 == 0 {
                ((s - 1) << 4, ((s - 1) << 4) | 15)
            } else {
                let b = (w[p / 2] & 0xF0) | (s - 1);
                (b, b)
            };
            let mut high = [head, &[last]].concat();
            // all that starts with `high` lies below: 65 bytes of FF end the range of keys of up to 64 bytes
            high.resize(high.len() + 65, 0xFF);
            ([head, &[first]].concat(), high)
        };
        let mut range = self.map.range(low..high);
        let first = range.next()?.0;
        Some((first, range.next_back().map_or(first, |e| e.0)))
    }

    // The closest leaf to a key, and the positions of the branches above it.
    fn closest(&self, key: &[u8]) -> (&Key, Vec<usize>) {
        let mut first = self.map.keys().next().unwrap();
        let mut last = self.map.keys().next_back().unwrap();
        let mut path = Vec::new();
        while first != last {
            let p = critical(first, last);
            path.push(p);
            let lowest = nibble(first, p);
            (first, last) = self.group(first, p, nibble(key, p)).or_else(|| self.group(first, p, lowest)).unwrap();
        }
        (first, path)
    }

    fn insert(&mut self, key: &Key, value: u32) -> u8 {
        if let Some(v) = self.map.get_mut(key) {
            *v = value;
            return 1;
        }
        if !self.map.is_empty() {
            let (leaf, path) = self.closest(key);
            let c = critical(key, leaf);
            if !path.contains(&c) && path.len() >= self.limit as usize {
                return HEIGHT;
            }
        }
        if self.map.len() == self.capacity {
            return FULL;
        }
        self.map.insert(key.clone(), value);
        0
    }

    // The entries of a page, and the end mark.
    pub fn page(&self, p: &Page, after: Option<&Key>) -> (Vec<(Key, u32)>, bool) {
        let from = match after {
            Some(a) if *a >= p.prefix => Bound::Excluded(a),
            _ => Bound::Included(&p.prefix),
        };
        let mut rest = self
            .map
            .range::<Key, _>((from, Bound::Unbounded))
            .take_while(|e| e.0.starts_with(&p.prefix))
            .filter(|e| p.inclusive || *e.0 != p.prefix);
        let entries = rest.by_ref().take(p.n as usize).map(|e| (e.0.clone(), *e.1)).collect();
        (entries, rest.next().is_none())
    }
}

fn page_answer(answer: u8, entries: &[(Key, u32)], end: bool) -> Vec<u8> {
    let mut bytes = Vec::new();
    for (k, v) in entries {
        bytes.push(1);
        bytes.extend_from_slice(&(k.len() as u16).to_be_bytes());
        bytes.extend_from_slice(k);
        bytes.extend_from_slice(&[2, 0, 4]);
        bytes.extend_from_slice(&v.to_be_bytes());
    }
    let mut r = vec![answer];
    r.extend_from_slice(&(entries.len() as u16).to_le_bytes());
    r.extend_from_slice(&(bytes.len() as u32).to_le_bytes());
    r.push(end as u8);
    r.extend_from_slice(&bytes);
    r.push(1);
    r
}

fn value_answer(answer: u8, value: u32) -> Vec<u8> {
    let mut r = vec![answer];
    r.extend_from_slice(&value.to_le_bytes());
    r
}

impl Model {
    fn list(&self, p: &Page, after: Option<&Key>) -> Vec<u8> {
        let Some(s) = &self.store else {
            return page_answer(STORE, &[], false);
        };
        if p.prefix.len() > KEY_LIMIT || after.is_some_and(|a| a.len() > KEY_LIMIT) {
            return page_answer(KEY, &[], false);
        }
        if p.n == 0 || p.n > 256 || p.room < 74 * p.n as usize {
            return page_answer(COUNT, &[], false);
        }
        let (entries, end) = s.page(p, after);
        page_answer(0, &entries, end)
    }

    fn change(&mut self, key: &Key, act: impl FnOnce(&mut Store) -> u8) -> u8 {
        match &mut self.store {
            None => STORE,
            Some(_) if key.len() > KEY_LIMIT => KEY,
            Some(s) => act(s),
        }
    }

    // What a call answers, and what the store is after it. Raw bytes are not the model's: it has no answer for a dump or a hash.
    pub fn call(&mut self, call: &Call) -> Vec<u8> {
        match call {
            Call::Space(len) => {
                *self = Model { len: *len, store: None };
                vec![]
            }
            Call::Write(..) | Call::Hash | Call::Dump(..) => vec![],
            Call::Create(limit) => {
                if self.len < 256 {
                    return vec![ROOM];
                }
                self.store = Some(Store {
                    capacity: capacity(self.len),
                    limit: *limit,
                    map: BTreeMap::new(),
                });
                vec![0]
            }
            Call::Check => vec![if self.store.is_some() { 0 } else { STORE }],
            Call::IsEmpty => match &self.store {
                None => vec![STORE, 0],
                Some(s) => vec![0, s.map.is_empty() as u8],
            },
            Call::Limit(limit) => match &mut self.store {
                None => vec![STORE],
                Some(s) => {
                    s.limit = *limit;
                    vec![0]
                }
            },
            Call::Insert(k, v) => vec![self.change(k, |s| s.insert(k, *v))],
            Call::Get(k) => match &self.store {
                None => value_answer(STORE, 0),
                Some(_) if k.len() > KEY_LIMIT => value_answer(KEY, 0),
                Some(s) => s.map.get(k).map_or(value_answer(ABSENT, 0), |v| value_answer(0, *v)),
            },
            Call::Overwrite(k, v) => vec![self.change(k, |s| match s.map.get_mut(k) {
                None => ABSENT,
                Some(old) => {
                    *old = *v;
                    0
                }
            })],
            Call::Remove(k) => vec![self.change(k, |s| if s.map.remove(k).is_some() { 0 } else { ABSENT })],
            Call::First(p) => self.list(p, None),
            Call::Next(p, after) => self.list(p, Some(after)),
        }
    }
}
