// The calls of a script, as the program replay reads them, and the answers that it writes.

pub type Key = Vec<u8>;

#[derive(Clone, Debug, PartialEq)]
pub enum Call {
    Space(usize),
    Write(usize, Vec<u8>),
    Hash,
    Dump(usize, usize),
    Create(u16),
    Check,
    IsEmpty,
    Limit(u16),
    Insert(Key, u32),
    Get(Key),
    Overwrite(Key, u32),
    Remove(Key),
    First(Page),
    Next(Page, Key),
}

#[derive(Clone, Debug, PartialEq)]
pub struct Page {
    pub inclusive: bool,
    pub n: u32,
    pub room: usize,
    pub prefix: Key,
}

// No record crosses a multiple of this.
const BLOCK: usize = 65536;

fn put_key(r: &mut Vec<u8>, k: &Key) {
    r.push(k.len() as u8);
    r.extend_from_slice(k);
}

fn put_page(r: &mut Vec<u8>, p: &Page) {
    r.push(p.inclusive as u8);
    r.extend_from_slice(&p.n.to_le_bytes());
    r.extend_from_slice(&(p.room as u32).to_le_bytes());
    put_key(r, &p.prefix);
}

pub fn record(call: &Call) -> Vec<u8> {
    let mut r = Vec::new();
    match call {
        Call::Space(len) => {
            r.push(b'Z');
            r.extend_from_slice(&(*len as u32).to_le_bytes());
        }
        Call::Write(at, bytes) => {
            r.push(b'W');
            r.extend_from_slice(&(*at as u32).to_le_bytes());
            put_key(&mut r, bytes);
        }
        Call::Hash => r.push(b'H'),
        Call::Dump(at, n) => {
            r.push(b'D');
            r.extend_from_slice(&(*at as u32).to_le_bytes());
            r.extend_from_slice(&(*n as u16).to_le_bytes());
        }
        Call::Create(limit) => {
            r.push(b'C');
            r.extend_from_slice(&limit.to_le_bytes());
        }
        Call::Check => r.push(b'K'),
        Call::IsEmpty => r.push(b'E'),
        Call::Limit(limit) => {
            r.push(b'L');
            r.extend_from_slice(&limit.to_le_bytes());
        }
        Call::Insert(k, v) | Call::Overwrite(k, v) => {
            r.push(if matches!(call, Call::Insert(..)) { b'I' } else { b'O' });
            put_key(&mut r, k);
            r.extend_from_slice(&v.to_le_bytes());
        }
        Call::Get(k) | Call::Remove(k) => {
            r.push(if matches!(call, Call::Get(..)) { b'G' } else { b'R' });
            put_key(&mut r, k);
        }
        Call::First(p) => {
            r.push(b'F');
            put_page(&mut r, p);
        }
        Call::Next(p, after) => {
            r.push(b'N');
            put_page(&mut r, p);
            put_key(&mut r, after);
        }
    }
    r
}

pub fn encode(calls: &[Call]) -> Vec<u8> {
    let mut out = Vec::new();
    for call in calls {
        let r = record(call);
        if out.len() % BLOCK + r.len() > BLOCK {
            out.resize(out.len().div_ceil(BLOCK) * BLOCK, 0);
        }
        out.extend_from_slice(&r);
    }
    out
}

// Writes that put a whole slice from the store's start on.
pub fn load(bytes: &[u8]) -> Vec<Call> {
    bytes.chunks(240).enumerate().map(|(i, c)| Call::Write(i * 240, c.to_vec())).collect()
}

// Dumps of the first len bytes.
pub fn dumps(len: usize) -> Vec<Call> {
    (0..len).step_by(60000).map(|at| Call::Dump(at, (len - at).min(60000))).collect()
}

// The answers, one slice of the output for each call; fewer if the output ends early.
pub fn split<'a>(calls: &[Call], out: &'a [u8]) -> Vec<&'a [u8]> {
    let mut at = 0;
    let mut len = 0;
    let mut answers = Vec::with_capacity(calls.len());
    for call in calls {
        let size = match call {
            Call::Space(n) => {
                len = *n;
                0
            }
            Call::Write(..) => 0,
            Call::Hash => 8,
            Call::Dump(a, n) => {
                if a + n <= len {
                    *n
                } else {
                    0
                }
            }
            Call::IsEmpty => 2,
            Call::Get(_) => 5,
            Call::First(_) | Call::Next(..) => match out.get(at + 3..at + 7) {
                Some(b) => 9 + u32::from_le_bytes(b.try_into().unwrap()) as usize,
                None => break,
            },
            _ => 1,
        };
        match out.get(at..at + size) {
            Some(a) => answers.push(a),
            None => break,
        }
        at += size;
    }
    if answers.len() == calls.len() && at != out.len() {
        answers.pop();
    }
    answers
}

// The hash that replay makes of a store and its guard.
pub fn hash(bytes: &[u8]) -> u64 {
    let guard = [0xA5u8; 256];
    bytes
        .iter()
        .chain(guard.iter())
        .fold(2166136261, |h, b| (((h + *b as u64) & ((1 << 39) - 1)) * 16777619) & ((1 << 39) - 1))
}
