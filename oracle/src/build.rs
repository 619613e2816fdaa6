// Stores made from a set of keys with no call: records at random places, free ones in random order; and some with one flaw that the counts do not show.
use crate::model::{critical, nibble};
use crate::rng::Rng;
use crate::script::Key;

#[derive(Clone, Copy, PartialEq)]
pub enum Flaw {
    Nothing,
    // a branch over one child
    OneChild,
    // a slot that is not the child's nibble
    Slot,
    // a position that is not the first where two keys differ
    Position,
    // two children that are one record
    Twice,
    // a chain of free records that is too short, or ends in a circle
    Short,
    Circle,
    // a key of 65 bytes
    Size,
    // bits of a bitmap past the 17 slots, which count for nothing
    Bits,
    // a number of the header that is one more or one less
    Count,
}

const FLAWS: [Flaw; 10] = [
    Flaw::Nothing,
    Flaw::OneChild,
    Flaw::Slot,
    Flaw::Position,
    Flaw::Twice,
    Flaw::Short,
    Flaw::Circle,
    Flaw::Size,
    Flaw::Bits,
    Flaw::Count,
];

struct Build {
    s: Vec<u8>,
    // numbers not used yet
    leaves: Vec<usize>,
    branches: Vec<usize>,
    flaw: Flaw,
}

impl Build {
    fn put2(&mut self, at: usize, v: usize) {
        self.s[at..at + 2].copy_from_slice(&(v as u16).to_le_bytes());
    }

    fn branch(&mut self, position: usize, kids: &[(u8, [u8; 3])]) -> [u8; 3] {
        let b = self.branches.pop().unwrap();
        let at = 128 + 128 * b + 64;
        let bits: u32 = kids.iter().map(|k| 1 << k.0).sum();
        self.s[at..at + 4].copy_from_slice(&bits.to_le_bytes());
        for (i, k) in kids.iter().enumerate() {
            self.s[at + 4 + 3 * i..][..3].copy_from_slice(&k.1);
        }
        let code = (16384 + b) as u16;
        [code as u8, (code >> 8) as u8, position as u8]
    }

    // The link to the picture of some sorted keys that agree before position `low`.
    fn node(&mut self, rng: &mut Rng, keys: &[Key], low: usize) -> [u8; 3] {
        let top = if keys.len() == 1 {
            2 * keys[0].len() + 1
        } else {
            critical(&keys[0], &keys[keys.len() - 1])
        };
        if self.flaw == Flaw::OneChild && low < top && rng.chance(40) {
            self.flaw = Flaw::Nothing;
            let q = low + rng.below(top - low);
            let kid = self.node(rng, keys, q + 1);
            return self.branch(q, &[(nibble(&keys[0], q), kid)]);
        }
        if keys.len() == 1 {
            let n = self.leaves.pop().unwrap();
            let at = 128 + 128 * n;
            self.s[at..at + keys[0].len()].copy_from_slice(&keys[0]);
            self.s[at + 119] = keys[0].len() as u8;
            let v = (rng.next() as u32).to_le_bytes();
            self.s[at + 120..at + 124].copy_from_slice(&v);
            return [n as u8, (n >> 8) as u8, 0];
        }
        let mut kids: Vec<(u8, [u8; 3])> = vec![];
        for group in keys.chunk_by(|a, b| nibble(a, top) == nibble(b, top)) {
            kids.push((nibble(&group[0], top), self.node(rng, group, top + 1)));
        }
        let mut position = top;
        if rng.chance(40) {
            let last = kids.len() - 1;
            match self.flaw {
                Flaw::Slot if kids[last].0 < 16 => kids[last].0 += 1,
                Flaw::Position => position = if rng.chance(50) { top + 1 } else { top.saturating_sub(1 + rng.below(3)) },
                Flaw::Twice => kids[last].1 = kids[0].1,
                _ => {}
            }
        }
        self.branch(position, &kids)
    }

    // The chain of the records not used, from its first number on.
    fn chain(&mut self, rng: &mut Rng, mut free: Vec<usize>, leaf: bool) -> usize {
        for n in &free {
            let at = 128 + 128 * n;
            if leaf {
                self.s[at + 119] = 255
            } else {
                self.s[at + 64..at + 68].fill(0)
            }
        }
        if self.flaw == Flaw::Short && rng.chance(50) {
            free.pop();
        }
        let end = if self.flaw == Flaw::Circle && !free.is_empty() {
            *rng.pick(&free)
        } else {
            65535
        };
        for (i, n) in free.iter().enumerate() {
            let next = *free.get(i + 1).unwrap_or(&end);
            self.put2(128 + 128 * n + if leaf { 120 } else { 68 }, next);
        }
        *free.first().unwrap_or(&65535)
    }
}

// A store of some of the keys.
pub fn built(rng: &mut Rng, keys: &[Key]) -> Vec<u8> {
    let mut keys: Vec<Key> = keys.iter().filter(|k| k.len() <= 64).cloned().collect();
    rng.shuffle(&mut keys);
    keys.truncate(rng.below(9));
    keys.sort();
    keys.dedup();
    let capacity = (keys.len() + rng.below(4)).max(1);
    let flaw = *rng.pick(&FLAWS);
    let mut leaves: Vec<usize> = (0..capacity).collect();
    let mut branches = leaves.clone();
    rng.shuffle(&mut leaves);
    rng.shuffle(&mut branches);
    let mut b = Build {
        s: vec![0xA5; 128 * (capacity + 1) + rng.below(128)],
        leaves,
        branches,
        flaw,
    };
    b.s[..4].copy_from_slice(b"PQP1");
    let root = if keys.is_empty() { [255, 255, 0] } else { b.node(rng, &keys, 0) };
    b.flaw = flaw;
    b.put2(4, capacity);
    b.put2(6, rng.below(10));
    let (free, free_branches) = (b.leaves.clone(), b.branches.clone());
    b.put2(8, capacity - free.len());
    b.put2(10, capacity - free_branches.len());
    b.s[12..15].copy_from_slice(&root);
    let first = b.chain(rng, free, true);
    b.put2(15, first);
    let first = b.chain(rng, free_branches, false);
    b.put2(17, first);
    let record = 128 + 128 * rng.below(capacity);
    if flaw == Flaw::Size && b.s[record + 119] != 255 {
        b.s[record + 119] = 65;
    }
    if flaw == Flaw::Bits {
        let bit = 17 + rng.below(15);
        b.s[record + 64 + bit / 8] |= 1 << (bit % 8);
    }
    if flaw == Flaw::Count {
        let at = *rng.pick(&[8, 10]);
        b.s[at] = if rng.chance(50) { b.s[at] + 1 } else { b.s[at].saturating_sub(1) };
    }
    b.s
}

// Branches on one path, each of which leads to the next by every child, and the last one to a leaf or to nothing: there are more ways down than can be walked.
pub fn ladder(rng: &mut Rng) -> Vec<u8> {
    let steps = 20 + rng.below(109);
    let capacity = steps + 1 + rng.below(4);
    let mut b = Build {
        s: vec![0xA5; 128 * (capacity + 1)],
        leaves: vec![],
        branches: (0..steps).collect(),
        flaw: Flaw::Nothing,
    };
    let size = *rng.pick(&[0, 0, 1, 64]);
    let key: Key = (0..size).map(|_| rng.next() as u8).collect();
    b.s[128..128 + size].copy_from_slice(&key);
    b.s[128 + 119] = size as u8;
    let mut link = if rng.chance(70) { [0, 0, 0] } else { [255, 63, 0] };
    for i in 0..steps {
        let position = (127 * (steps - i) / steps) as usize;
        let most = 2 + rng.below(16);
        let mut slots: Vec<u8> = (0..17).collect();
        rng.shuffle(&mut slots);
        slots.truncate(most);
        if rng.chance(80) && !slots.contains(&nibble(&key, position)) {
            slots.push(nibble(&key, position));
        }
        slots.sort();
        let kids: Vec<(u8, [u8; 3])> = slots.iter().map(|s| (*s, link)).collect();
        if i == 0 && rng.chance(20) {
            link = b.branch(position, &[]);
        } else {
            link = b.branch(position, &kids);
        }
    }
    b.s[..4].copy_from_slice(b"PQP1");
    b.put2(4, capacity);
    b.put2(6, rng.below(200));
    let leaves = 1 + rng.below(capacity);
    b.put2(8, leaves);
    b.put2(10, steps);
    b.s[12..15].copy_from_slice(&link);
    b.put2(15, 65535);
    b.put2(17, 65535);
    b.s
}
