// Sequences of calls on good stores: every answer is the model's, every dump is accepted by the checker exactly if the model has a store and holds the model's
// map, no read and no refusal changes a byte, and the bytes past the last record stay.
use crate::checker::accepted;
use crate::model::Model;
use crate::original::Original;
use crate::replay::Replay;
use crate::script::{hash, split, Call};

// The first difference: the number of the call and what is not the same.
pub type Difference = (usize, String);

fn reads(call: &Call) -> bool {
    matches!(
        call,
        Call::Check | Call::IsEmpty | Call::Get(_) | Call::First(_) | Call::Next(..) | Call::Hash | Call::Dump(..)
    )
}

// What a whole dump shows.
fn dumped(model: &Model, bytes: &[u8], last: Option<u64>) -> Option<String> {
    let found = accepted(bytes);
    match (&model.store, &found) {
        (None, None) => {}
        (Some(s), Some((limit, map))) if s.limit == *limit && s.map == *map => {}
        (Some(_), None) => return Some("the checker refuses the store".into()),
        (None, Some(_)) => return Some("the checker accepts bytes that are no store".into()),
        _ => return Some("the store's bytes hold another map or limit than the model".into()),
    }
    if let Some(s) = &model.store {
        if bytes[128 * (s.capacity + 1)..].iter().any(|b| *b != 0xA5) {
            return Some("bytes past the last record were written".into());
        }
    }
    match last {
        Some(h) if h != hash(bytes) => Some("the hash is not that of the dump and an untouched guard".into()),
        _ => None,
    }
}

pub fn compare(calls: &[Call], out: &[u8]) -> Option<Difference> {
    let answers = split(calls, out);
    let mut model = Model::default();
    let mut dump: Vec<u8> = vec![];
    // the hash of the bytes as they are, where it is known
    let mut known: Option<u64> = None;
    for (i, call) in calls.iter().enumerate() {
        let Some(answer) = answers.get(i) else {
            return Some((i, "no answer, or bytes behind the last one".into()));
        };
        match call {
            Call::Hash => {
                let h = u64::from_le_bytes((*answer).try_into().unwrap());
                if known.is_some_and(|k| k != h) {
                    return Some((i, "the bytes changed".into()));
                }
                known = Some(h);
            }
            Call::Dump(at, n) => {
                if *at == 0 {
                    dump.clear();
                }
                dump.extend_from_slice(answer);
                if at + n == model.len && dump.len() == model.len {
                    if let Some(what) = dumped(&model, &dump, known) {
                        return Some((i, what));
                    }
                }
            }
            _ => {
                let wanted = model.call(call);
                if wanted != *answer {
                    return Some((i, format!("by document 01 {wanted:02X?}, by replay {answer:02X?}")));
                }
                let refused = wanted.first().is_some_and(|a| *a >= 10);
                if !refused && !reads(call) {
                    known = None;
                }
            }
        }
    }
    None
}

// The same calls on the Rust original.
pub fn compare_original(calls: &[Call]) -> Option<Difference> {
    let mut model = Model::default();
    let mut original = Original::new();
    for (i, call) in calls.iter().enumerate() {
        if matches!(call, Call::Hash | Call::Dump(..) | Call::Write(..)) {
            continue;
        }
        let answer = model.call(call);
        if let Some(what) = original.call(call, &model, &answer) {
            return Some((i, what));
        }
    }
    None
}

// A shorter sequence with a difference, by leaving calls out.
pub fn shorten(replay: &Replay, calls: &[Call]) -> Vec<Call> {
    let fails = |c: &[Call]| match replay.run(c) {
        Err(_) => Some(c.len()),
        Ok(out) => compare(c, &out).map(|d| d.0 + 1),
    };
    shorten_by(calls, &fails)
}

pub fn shorten_by(calls: &[Call], fails: &dyn Fn(&[Call]) -> Option<usize>) -> Vec<Call> {
    let mut now = calls.to_vec();
    if let Some(n) = fails(&now) {
        now.truncate(n);
    }
    let mut size = (now.len() / 2).max(1);
    loop {
        let mut at = 0;
        let mut shorter = false;
        while at < now.len() {
            let mut less = now[..at].to_vec();
            less.extend_from_slice(&now[(at + size).min(now.len())..]);
            match fails(&less) {
                Some(n) => {
                    less.truncate(n);
                    now = less;
                    shorter = true;
                }
                None => at += size,
            }
        }
        if size == 1 && !shorter {
            return now;
        }
        size = (size / 2).max(1);
    }
}
