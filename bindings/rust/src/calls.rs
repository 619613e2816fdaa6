//! The calls of the archive, each behind a safe function. All that is unsafe is here.
//!
//! The archive's functions ask nothing of the bytes that they are lent: their contracts have no precondition, and are proved. What they ask of a caller that
//! is not Rattle is that a pointer and a length are those of bytes that stay lent during the call, and that what is lent to be written overlaps nothing else.
//! A Rust slice or reference is all of that, so each block below needs no more than to hand over the parts of its parameters in the order of the declaration.

mod archive {
    extern "C" {
        pub fn ponybollard_create(store: *mut u8, store_len: usize, limit: u16) -> u32;
        pub fn ponybollard_check(store: *const u8, store_len: usize) -> u32;
        pub fn ponybollard_is_empty(store: *const u8, store_len: usize, empty: *mut bool) -> u32;
        pub fn ponybollard_set_limit(store: *mut u8, store_len: usize, limit: u16) -> u32;
        pub fn ponybollard_insert(store: *mut u8, store_len: usize, key: *const u8, key_len: usize, value: u32) -> u32;
        pub fn ponybollard_get(store: *const u8, store_len: usize, key: *const u8, key_len: usize, value: *mut u32) -> u32;
        pub fn ponybollard_overwrite(store: *mut u8, store_len: usize, key: *const u8, key_len: usize, value: u32) -> u32;
        pub fn ponybollard_remove(store: *mut u8, store_len: usize, key: *const u8, key_len: usize) -> u32;
        pub fn ponybollard_first_page(
            store: *const u8,
            store_len: usize,
            prefix: *const u8,
            prefix_len: usize,
            inclusive: bool,
            size: u32,
            out: *mut u8,
            out_len: usize,
            entries: *mut usize,
            bytes: *mut usize,
            end: *mut bool,
        ) -> u32;
        pub fn ponybollard_next_page(
            store: *const u8,
            store_len: usize,
            prefix: *const u8,
            prefix_len: usize,
            inclusive: bool,
            after: *const u8,
            after_len: usize,
            size: u32,
            out: *mut u8,
            out_len: usize,
            entries: *mut usize,
            bytes: *mut usize,
            end: *mut bool,
        ) -> u32;
    }
}

pub fn create(store: &mut [u8], limit: u16) -> u32 {
    // SAFETY: the pointer and the length are those of one slice, lent alone for the call.
    unsafe { archive::ponybollard_create(store.as_mut_ptr(), store.len(), limit) }
}

pub fn check(store: &[u8]) -> u32 {
    // SAFETY: the pointer and the length are those of one slice, which the call only reads.
    unsafe { archive::ponybollard_check(store.as_ptr(), store.len()) }
}

/// The answer, and whether the store is empty.
pub fn is_empty(store: &[u8]) -> (u32, bool) {
    let mut empty = false;
    // SAFETY: the store is only read; `empty` is a local of this function, and the call writes a bool to it.
    let answer = unsafe { archive::ponybollard_is_empty(store.as_ptr(), store.len(), &mut empty) };
    (answer, empty)
}

pub fn set_limit(store: &mut [u8], limit: u16) -> u32 {
    // SAFETY: the pointer and the length are those of one slice, lent alone for the call.
    unsafe { archive::ponybollard_set_limit(store.as_mut_ptr(), store.len(), limit) }
}

pub fn insert(store: &mut [u8], key: &[u8], value: u32) -> u32 {
    // SAFETY: each pointer stands with its slice's length; the store is lent alone, so the key lies elsewhere.
    unsafe { archive::ponybollard_insert(store.as_mut_ptr(), store.len(), key.as_ptr(), key.len(), value) }
}

/// The answer, and the value.
pub fn get(store: &[u8], key: &[u8]) -> (u32, u32) {
    let mut value = 0;
    // SAFETY: store and key are only read; `value` is a local of this function, and the call writes a u32 to it.
    let answer = unsafe { archive::ponybollard_get(store.as_ptr(), store.len(), key.as_ptr(), key.len(), &mut value) };
    (answer, value)
}

pub fn overwrite(store: &mut [u8], key: &[u8], value: u32) -> u32 {
    // SAFETY: each pointer stands with its slice's length; the store is lent alone, so the key lies elsewhere.
    unsafe { archive::ponybollard_overwrite(store.as_mut_ptr(), store.len(), key.as_ptr(), key.len(), value) }
}

pub fn remove(store: &mut [u8], key: &[u8]) -> u32 {
    // SAFETY: each pointer stands with its slice's length; the store is lent alone, so the key lies elsewhere.
    unsafe { archive::ponybollard_remove(store.as_mut_ptr(), store.len(), key.as_ptr(), key.len()) }
}

/// What a page is: its answer, the entries, the bytes that they take, and the end mark.
pub struct Given {
    pub answer: u32,
    pub entries: usize,
    pub bytes: usize,
    pub end: bool,
}

pub fn first_page(store: &[u8], prefix: &[u8], inclusive: bool, size: u32, out: &mut [u8]) -> Given {
    let (mut entries, mut bytes, mut end) = (0, 0, false);
    // SAFETY: store and prefix are only read; `out` is lent alone, so it lies elsewhere; the rest are locals of this function, of the types that the call writes.
    let answer = unsafe {
        archive::ponybollard_first_page(
            store.as_ptr(),
            store.len(),
            prefix.as_ptr(),
            prefix.len(),
            inclusive,
            size,
            out.as_mut_ptr(),
            out.len(),
            &mut entries,
            &mut bytes,
            &mut end,
        )
    };
    Given {
        answer,
        entries,
        bytes,
        end,
    }
}

pub fn next_page(store: &[u8], prefix: &[u8], inclusive: bool, after: &[u8], size: u32, out: &mut [u8]) -> Given {
    let (mut entries, mut bytes, mut end) = (0, 0, false);
    // SAFETY: as in `first_page`; the after-key is only read, too.
    let answer = unsafe {
        archive::ponybollard_next_page(
            store.as_ptr(),
            store.len(),
            prefix.as_ptr(),
            prefix.len(),
            inclusive,
            after.as_ptr(),
            after.len(),
            size,
            out.as_mut_ptr(),
            out.len(),
            &mut entries,
            &mut bytes,
            &mut end,
        )
    };
    Given {
        answer,
        entries,
        bytes,
        end,
    }
}
