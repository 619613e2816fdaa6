// Random sequences of calls. A model goes along, so that a listing can go on after the last key of a page.
use crate::model::Model;
use crate::rng::Rng;
use crate::script::{dumps, Call, Key, Page};

const ALPHABETS: [&[u8]; 9] = [
    &[0],
    &[0, 1],
    &[0x00, 0x01, 0x10, 0x11],
    b"ab",
    &[0x1F, 0x10, 0xF1, 0xFF],
    &[0x00, 0x0F, 0xF0, 0xFF],
    &[0x50, 0x51, 0x52, 0x53, 0x54, 0x5F],
    &[0x05, 0x15, 0x25, 0x75, 0xF5],
    &[0xFF],
];

const LIMITS: [u16; 13] = [0, 1, 2, 3, 4, 5, 6, 7, 8, 127, 128, 129, 65535];

fn word(rng: &mut Rng, letters: &[u8], len: usize) -> Key {
    (0..len).map(|_| *rng.pick(letters)).collect()
}

// Keys that are close to each other: words over few letters, their prefixes, trailing zeros, sizes about the key limit.
fn pool(rng: &mut Rng, size: usize) -> Vec<Key> {
    let every: Vec<u8> = (0..=255).collect();
    let letters: &[u8] = if rng.chance(12) { &every } else { rng.pick::<&[u8]>(&ALPHABETS) };
    let most = *rng.pick(&[2, 3, 5, 9]);
    let stem_size = rng.below(66);
    let stem = word(rng, letters, stem_size);
    let long = rng.chance(25);
    let mut keys: Vec<Key> = vec![vec![]];
    while keys.len() < size {
        let len = rng.below(most + 1);
        let mut k = word(rng, letters, len);
        if long && rng.chance(50) {
            k = [&stem[..], &k].concat();
        }
        match rng.below(20) {
            0 => k.push(0),
            1 => k.extend_from_slice(&[0, 0]),
            2 => k = rng.pick(&keys).clone(),
            3 => k.resize(*rng.pick(&[62, 63, 64, 65, 66]), letters[0]),
            4 => {
                k = rng.pick(&keys).clone();
                k.pop();
            }
            5 => {
                k = rng.pick(&keys).clone();
                k.push(*rng.pick(letters));
            }
            6 => {
                k = rng.pick(&keys).clone();
                if let Some(b) = k.last_mut() {
                    *b ^= 1 << (next_bit(rng));
                }
            }
            _ => {}
        }
        k.truncate(70);
        keys.push(k);
    }
    keys
}

fn next_bit(rng: &mut Rng) -> usize {
    rng.below(8)
}

// A key of 64 bytes, and keys that leave it at each of its nibbles: a branch at each position on one path.
fn comb(rng: &mut Rng) -> Vec<Key> {
    let stem: Key = (0..64).map(|_| rng.next() as u8).collect();
    let mut keys = vec![stem.clone()];
    for p in 0..128 {
        let mut k = stem.clone();
        k[p / 2] ^= if p % 2 == 0 { 0x30 } else { 0x03 };
        k.truncate(if rng.chance(50) { p / 2 + 1 } else { 64 });
        keys.push(k);
        if p % 2 == 0 && rng.chance(20) {
            keys.push(stem[..p / 2].to_vec());
        }
    }
    keys
}

pub struct Sequence {
    pub calls: Vec<Call>,
    pub listings: usize,
    model: Model,
    // hashes and dumps now and then
    small: bool,
    // a check after each call
    checked: bool,
}

impl Sequence {
    fn push(&mut self, call: Call) -> Vec<u8> {
        let answer = self.model.call(&call);
        self.calls.push(call);
        answer
    }

    // A call, with a hash before and after it now and then, and a check after it.
    fn watched(&mut self, rng: &mut Rng, call: Call) -> Vec<u8> {
        let hash = self.small && rng.chance(30);
        if hash {
            self.push(Call::Hash);
        }
        let answer = self.push(call);
        if hash {
            self.push(Call::Hash);
        }
        if self.checked {
            self.push(Call::Check);
        }
        if self.small && rng.chance(4) {
            self.calls.extend(dumps(self.model.len));
        }
        answer
    }

    // All pages of a listing.
    fn list(&mut self, rng: &mut Rng, prefix: Key, n: u32) {
        let inclusive = rng.chance(50);
        let room = 74 * n as usize + if rng.chance(30) { rng.below(100) } else { 0 };
        let page = Page { inclusive, n, room, prefix };
        self.listings += 1;
        let mut answer = self.push(Call::First(page.clone()));
        while answer[0] == 0 && answer[7] == 0 {
            let after = last_key(&answer[8..answer.len() - 1]);
            answer = self.push(Call::Next(page.clone(), after));
        }
    }
}

fn last_key(entries: &[u8]) -> Key {
    let mut at = 0;
    loop {
        let size = entries[at + 2] as usize;
        let next = at + size + 10;
        if next == entries.len() {
            return entries[at + 3..at + 3 + size].to_vec();
        }
        at = next;
    }
}

fn any_page(rng: &mut Rng, prefix: Key) -> Page {
    let n = *rng.pick(&[0, 1, 1, 2, 3, 4, 7, 16, 255, 256, 257, 65536, u32::MAX]);
    let need = 74 * (n as usize).min(300);
    let room = *rng.pick(&[need, need, need + 1, need.saturating_sub(1), 0, 32768]);
    Page {
        inclusive: rng.chance(50),
        n,
        room,
        prefix,
    }
}

fn one(rng: &mut Rng, keys: &[Key], fill: usize) -> Call {
    let k = rng.pick(keys).clone();
    let v = if rng.chance(5) { u32::MAX } else { rng.next() as u32 };
    match rng.below(100) {
        x if x < fill => Call::Insert(k, v),
        x if x < 60 => Call::Remove(k),
        x if x < 75 => Call::Get(k),
        x if x < 82 => Call::Overwrite(k, v),
        x if x < 85 => Call::Limit(*rng.pick(&LIMITS)),
        x if x < 87 => Call::IsEmpty,
        x if x < 93 => Call::First(any_page(rng, k)),
        _ => {
            let after = rng.pick(keys).clone();
            Call::Next(any_page(rng, k), after)
        }
    }
}

// A store from its creation on: fills, changes and removals in some order, listings with many page sizes.
pub fn sequence(rng: &mut Rng, capacity: usize, turns: usize) -> Sequence {
    let mut s = Sequence {
        calls: vec![],
        listings: 0,
        model: Model::default(),
        small: capacity <= 40,
        checked: capacity <= 511,
    };
    let slack = if rng.chance(50) { 0 } else { rng.below(128) };
    s.push(Call::Space(if rng.chance(2) { rng.below(256) } else { 128 * (capacity + 1) + slack }));
    let mut keys = if capacity >= 130 && rng.chance(60) {
        comb(rng)
    } else {
        pool(rng, (3 * capacity / 2 + 6).min(900))
    };
    if rng.chance(5) {
        let call = one(rng, &keys, 40);
        s.watched(rng, call);
    }
    let limit = if rng.chance(40) { 128 } else { *rng.pick(&LIMITS) };
    s.watched(rng, Call::Create(limit));
    if rng.chance(50) {
        rng.shuffle(&mut keys);
        for k in keys.clone() {
            let v = rng.next() as u32;
            s.watched(rng, Call::Insert(k, v));
        }
    }
    for i in 0..turns {
        let fill = if (i / 40) % 2 == 0 { 45 } else { 25 };
        let call = one(rng, &keys, fill);
        s.watched(rng, call);
        if rng.chance(2) {
            let prefix = if rng.chance(50) { vec![] } else { rng.pick(&keys).clone() };
            let n = if rng.chance(70) { 1 + rng.below(6) } else { 1 + rng.below(256) } as u32;
            s.list(rng, prefix, n);
        }
        if rng.chance(1) && rng.chance(5) {
            s.watched(rng, Call::Create(limit));
        }
    }
    if rng.chance(15) {
        for n in 1..=(capacity + 1).min(41) as u32 {
            s.list(rng, vec![], n);
        }
    }
    s.calls.extend(dumps(s.model.len));
    let mut rest: Vec<Key> = s.model.store.iter().flat_map(|m| m.map.keys().cloned()).collect();
    match rng.below(4) {
        0 => rest.reverse(),
        1 => {}
        _ => rng.shuffle(&mut rest),
    }
    for k in rest {
        s.watched(rng, Call::Remove(k));
    }
    s.push(Call::Check);
    s.calls.extend(dumps(s.model.len));
    s
}

// A store of the largest capacity, filled to the end and emptied.
pub fn largest(rng: &mut Rng) -> Sequence {
    let mut s = Sequence {
        calls: vec![],
        listings: 0,
        model: Model::default(),
        small: false,
        checked: false,
    };
    let slack = rng.below(384);
    s.push(Call::Space(128 * 16385 + slack));
    s.push(Call::Create(128));
    let mut keys: Vec<Key> = (0..16384 + 20u32)
        .map(|i| i.wrapping_mul(2654435761).to_be_bytes()[..2 + (i % 3) as usize].to_vec())
        .collect();
    for k in &mut keys {
        if rng.chance(3) {
            k.resize(64, 7);
        }
    }
    let mut more: Vec<Key> = (0..9000).map(|_| word(rng, &[0, 1, 2, 3, 4, 5, 0x10, 0x20], 7)).collect();
    keys.append(&mut more);
    rng.shuffle(&mut keys);
    for (i, k) in keys.iter().enumerate() {
        s.push(Call::Insert(k.clone(), i as u32));
        if i % 5000 == 0 {
            s.push(Call::Check);
        }
    }
    s.push(Call::Check);
    s.list(rng, vec![], 256);
    s.list(rng, vec![], 255);
    for _ in 0..20000 {
        let call = one(rng, &keys, 40);
        if !matches!(call, Call::Limit(_)) {
            s.push(call);
        }
    }
    s.push(Call::Check);
    s.calls.extend(dumps(s.model.len));
    rng.shuffle(&mut keys);
    for k in keys {
        s.push(Call::Remove(k));
    }
    s.push(Call::IsEmpty);
    s.push(Call::Check);
    s
}
