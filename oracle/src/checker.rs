// "A store that the check accepts", from document 01, over the raw bytes. Every record reached is kept in a set, every leaf's nibbles are compared at every branch
// above it: slow, and plain.
//
// The layout: a header of 128 bytes with a mark (4), capacity, limit, leaves, branches (2 each), the root's link (3), the first free leaf and branch (2 each).
// Then blocks of 128 bytes: 64 key bytes; a bitmap (4) and 17 links (3 each); a key size (1), a value (4). A link is a code (2), below 16,384 a leaf and from
// there on a branch, and the branch's position (1), 0 for a leaf. A free leaf has the size 255 and the next number in its value; a free branch has none of its
// 17 bits set and the next number in its first link; 65,535 ends a chain.
use crate::model::{capacity, nibble};
use crate::script::Key;
use std::collections::{BTreeMap, BTreeSet};

fn two(s: &[u8], at: usize) -> usize {
    s[at] as usize + 256 * s[at + 1] as usize
}

fn three(s: &[u8], at: usize) -> usize {
    two(s, at) + 65536 * s[at + 2] as usize
}

struct Walk<'a> {
    s: &'a [u8],
    capacity: usize,
    leaves: BTreeSet<usize>,
    branches: BTreeSet<usize>,
    map: BTreeMap<Key, u32>,
}

impl Walk<'_> {
    // The keys below a link, or nothing where no picture is there. `low` is the least position that a branch may have.
    fn node(&mut self, link: usize, low: usize) -> Option<Vec<Key>> {
        let (code, position) = (link % 65536, link / 65536);
        if code < 16384 {
            if code >= self.capacity || position != 0 || !self.leaves.insert(code) {
                return None;
            }
            let block = &self.s[128 + 128 * code..][..128];
            let size = block[119] as usize;
            if size > 64 {
                return None;
            }
            let key = block[..size].to_vec();
            let value = u32::from_le_bytes(block[120..124].try_into().unwrap());
            self.map.insert(key.clone(), value);
            return Some(vec![key]);
        }
        let b = code - 16384;
        if b >= self.capacity || position < low || !self.branches.insert(b) {
            return None;
        }
        let at = 128 + 128 * b + 64;
        let bits = three(self.s, at) % (1 << 17);
        let mut all = Vec::new();
        let mut place = 0;
        for slot in 0..17u8 {
            if bits >> slot & 1 == 1 {
                let kids = self.node(three(self.s, at + 4 + 3 * place), position + 1)?;
                if kids.iter().any(|k| nibble(k, position) != slot) {
                    return None;
                }
                all.extend(kids);
                place += 1;
            }
        }
        let first: &Key = all.first()?;
        let agree = all.iter().all(|k| (0..position).all(|p| nibble(k, p) == nibble(first, p)));
        if place < 2 || !agree {
            None
        } else {
            Some(all)
        }
    }
}

// Whether the free records are exactly those not reached, each once.
fn chain(first: usize, capacity: usize, reached: &BTreeSet<usize>, next: impl Fn(usize) -> Option<usize>) -> bool {
    let mut met = BTreeSet::new();
    let mut at = first;
    while at != 65535 {
        if at >= capacity || reached.contains(&at) || !met.insert(at) {
            return false;
        }
        match next(at) {
            None => return false,
            Some(n) => at = n,
        }
    }
    met.len() + reached.len() == capacity
}

// The limit and the map that an accepted store holds.
pub fn accepted(s: &[u8]) -> Option<(u16, BTreeMap<Key, u32>)> {
    if s.len() < 256 || s[..4] != *b"PQP1" || two(s, 4) != capacity(s.len()) {
        return None;
    }
    let capacity = capacity(s.len());
    let (leaves, branches) = (two(s, 8), two(s, 10));
    let mut w = Walk {
        s,
        capacity,
        leaves: BTreeSet::new(),
        branches: BTreeSet::new(),
        map: BTreeMap::new(),
    };
    if leaves == 0 {
        if three(s, 12) != 65535 {
            return None;
        }
    } else {
        w.node(three(s, 12), 0)?;
    }
    if w.leaves.len() != leaves || w.branches.len() != branches || w.map.len() != leaves {
        return None;
    }
    let leaf = |n: usize| {
        if s[128 + 128 * n + 119] == 255 {
            Some(two(s, 128 + 128 * n + 120))
        } else {
            None
        }
    };
    let branch = |n: usize| {
        let at = 128 + 128 * n + 64;
        if three(s, at) % (1 << 17) == 0 {
            Some(two(s, at + 4))
        } else {
            None
        }
    };
    if chain(two(s, 15), capacity, &w.leaves, leaf) && chain(two(s, 17), capacity, &w.branches, branch) {
        Some((two(s, 6) as u16, w.map))
    } else {
        None
    }
}
