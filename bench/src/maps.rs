// The three maps that are measured, by the same few operations.
use crate::keys::Key;
use std::cell::RefCell;
use std::collections::BTreeMap;
use std::hint::black_box;
use std::ops::Bound;

pub trait Map {
    fn new(count: usize) -> Self;
    // The key is the map's to take, where it keeps keys.
    fn insert(&mut self, key: &mut Key, value: u32) -> bool;
    fn get(&self, key: &Key) -> Option<u32>;
    fn overwrite(&mut self, key: &Key, value: u32) -> bool;
    fn remove(&mut self, key: &Key) -> bool;
    // Visits every key under the prefix, itself too, in order; tells how many.
    fn list(&self, prefix: &Key) -> usize;
}

// What a listing is for: the key is read, and its value.
fn visit(key: &[u8], value: u32) {
    black_box(key.iter().fold(value, |sum, byte| sum.wrapping_add(u32::from(*byte))));
}

// ---- this index, by the archive's functions

#[allow(clashing_extern_declarations)]
extern "C" {
    fn ponybollard_create(store: *mut u8, store_len: usize, limit: u16) -> u32;
    fn ponybollard_insert(store: *mut u8, store_len: usize, key: *const u8, key_len: usize, value: u32) -> u32;
    fn ponybollard_get(store: *const u8, store_len: usize, key: *const u8, key_len: usize, value: *mut u32) -> u32;
    fn ponybollard_overwrite(store: *mut u8, store_len: usize, key: *const u8, key_len: usize, value: u32) -> u32;
    fn ponybollard_remove(store: *mut u8, store_len: usize, key: *const u8, key_len: usize) -> u32;
    fn ponybollard_first_page(store: *const u8, store_len: usize, prefix: *const u8, prefix_len: usize, inclusive: bool, size: u32, out: *mut u8, out_len: usize, entries: *mut usize, bytes: *mut usize, end: *mut bool) -> u32;
    fn ponybollard_next_page(store: *const u8, store_len: usize, prefix: *const u8, prefix_len: usize, inclusive: bool, after: *const u8, after_len: usize, size: u32, out: *mut u8, out_len: usize, entries: *mut usize, bytes: *mut usize, end: *mut bool) -> u32;
}

// the store, and the room for a page: both are the caller's, and made beforehand
pub struct Index(Vec<u8>, RefCell<Box<[u8; 74 * SIZE as usize]>>);

// the entries of a page
const SIZE: u32 = 256;

// SAFETY of each block: a pointer stands with its slice's length, and what is written is lent alone.
impl Index {
    // The store made anew, with no key.
    pub fn create(&mut self) {
        assert_eq!(unsafe { ponybollard_create(self.0.as_mut_ptr(), self.0.len(), 128) }, 0);
    }
}

impl Map for Index {
    fn new(count: usize) -> Index {
        let mut index = Index(vec![0; 128 * (count + 1)], RefCell::new(Box::new([0; 74 * SIZE as usize])));
        index.create();
        index
    }

    fn insert(&mut self, key: &mut Key, value: u32) -> bool {
        unsafe { ponybollard_insert(self.0.as_mut_ptr(), self.0.len(), key.as_ptr(), key.len(), value) == 0 }
    }

    fn get(&self, key: &Key) -> Option<u32> {
        let mut value = 0;
        let answer = unsafe { ponybollard_get(self.0.as_ptr(), self.0.len(), key.as_ptr(), key.len(), &mut value) };
        (answer == 0).then_some(value)
    }

    fn overwrite(&mut self, key: &Key, value: u32) -> bool {
        unsafe { ponybollard_overwrite(self.0.as_mut_ptr(), self.0.len(), key.as_ptr(), key.len(), value) == 0 }
    }

    fn remove(&mut self, key: &Key) -> bool {
        unsafe { ponybollard_remove(self.0.as_mut_ptr(), self.0.len(), key.as_ptr(), key.len()) == 0 }
    }

    fn list(&self, prefix: &Key) -> usize {
        let out = &mut **self.1.borrow_mut();
        let (mut all, mut entries, mut bytes, mut end) = (0, 0, 0, false);
        let (store, len) = (self.0.as_ptr(), self.0.len());
        let mut answer = unsafe {
            ponybollard_first_page(store, len, prefix.as_ptr(), prefix.len(), true, SIZE, out.as_mut_ptr(), out.len(), &mut entries, &mut bytes, &mut end)
        };
        loop {
            assert_eq!(answer, 0);
            let (mut at, mut last) = (0, 0..0);
            while at < bytes {
                let key = at + 3..at + 3 + u16::from_be_bytes([out[at + 1], out[at + 2]]) as usize;
                let value = &out[key.end + 3..key.end + 7];
                visit(&out[key.clone()], u32::from_be_bytes(value.try_into().unwrap()));
                at = key.end + 7;
                last = key;
            }
            all += entries;
            if end {
                return all;
            }
            let mut after = [0; 64];
            let size = last.len();
            after[..size].copy_from_slice(&out[last]);
            answer = unsafe {
                ponybollard_next_page(store, len, prefix.as_ptr(), prefix.len(), true, after.as_ptr(), size, SIZE, out.as_mut_ptr(), out.len(), &mut entries, &mut bytes, &mut end)
            };
        }
    }
}

// ---- the Rust original

pub struct Original(qptrie::Trie<Key, u32>);

impl Map for Original {
    fn new(_count: usize) -> Original {
        Original(qptrie::Trie::new())
    }

    fn insert(&mut self, key: &mut Key, value: u32) -> bool {
        self.0.insert(std::mem::take(key), value)
    }

    fn get(&self, key: &Key) -> Option<u32> {
        self.0.get(key).copied()
    }

    fn overwrite(&mut self, key: &Key, value: u32) -> bool {
        self.0.get_mut(key).map(|v| *v = value).is_some()
    }

    fn remove(&mut self, key: &Key) -> bool {
        self.0.remove(key)
    }

    fn list(&self, prefix: &Key) -> usize {
        let mut all = 0;
        for (key, value) in self.0.prefix_iter(prefix).include_prefix() {
            visit(key, *value);
            all += 1;
        }
        all
    }
}

// ---- the standard library's tree

pub struct Tree(BTreeMap<Key, u32>);

impl Map for Tree {
    fn new(_count: usize) -> Tree {
        Tree(BTreeMap::new())
    }

    fn insert(&mut self, key: &mut Key, value: u32) -> bool {
        self.0.insert(std::mem::take(key), value).is_none()
    }

    fn get(&self, key: &Key) -> Option<u32> {
        self.0.get(key).copied()
    }

    fn overwrite(&mut self, key: &Key, value: u32) -> bool {
        self.0.get_mut(key).map(|v| *v = value).is_some()
    }

    fn remove(&mut self, key: &Key) -> bool {
        self.0.remove(key).is_some()
    }

    fn list(&self, prefix: &Key) -> usize {
        let mut all = 0;
        for (key, value) in self.0.range::<[u8], _>((Bound::Included(&prefix[..]), Bound::Unbounded)).take_while(|e| e.0.starts_with(prefix)) {
            visit(key, *value);
            all += 1;
        }
        all
    }
}
