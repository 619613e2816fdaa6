// Calls on damaged stores: each ends, no read and no refusal changes a byte, nothing past the last record or in the guard is written, a wrong header is always
// refused, and the check says STORE exactly if the separate checker does. On bytes that are a store all the same, every answer is the model's.
use crate::build::{built, ladder};
use crate::checker::accepted;
use crate::model::{capacity, Model, Store, KEY, STORE};
use crate::replay::Replay;
use crate::rng::Rng;
use crate::script::{dumps, hash, load, split, Call, Key, Page};
use crate::sequences::Difference;

fn put2(s: &mut [u8], at: usize, v: usize) {
    if at + 2 <= s.len() {
        s[at] = v as u8;
        s[at + 1] = (v >> 8) as u8;
    }
}

fn odd_number(rng: &mut Rng, capacity: usize) -> usize {
    let near = rng.below(capacity + 2);
    *rng.pick(&[
        near,
        near,
        near,
        capacity,
        capacity + 1,
        0,
        1,
        255,
        16383,
        16384,
        16384 + near,
        32768,
        65534,
        65535,
    ])
}

// One kind of damage.
fn hurt(rng: &mut Rng, s: &mut Vec<u8>) {
    let n = s.len();
    let cap = capacity(n);
    match rng.below(12) {
        0 => s.truncate(rng.below(n + 1)),
        1 => s.extend((0..rng.below(300)).map(|_| 0xA5)),
        2 => {
            let keep = *rng.pick(&[0, 0, 6, 19, 128]);
            for b in s.iter_mut().skip(keep) {
                *b = rng.next() as u8;
            }
        }
        3 | 4 if n > 0 => {
            for _ in 0..1 + rng.below(3) {
                let at = rng.below(n);
                s[at] ^= 1 << rng.below(8);
            }
        }
        5 if n > 0 => {
            for _ in 0..1 + rng.below(6) {
                let at = rng.below(n);
                s[at] = rng.next() as u8;
            }
        }
        6 | 7 => {
            let at = *rng.pick(&[0, 2, 4, 6, 8, 10, 12, 13, 15, 17]);
            let v = odd_number(rng, cap);
            put2(s, at, v);
        }
        // a link to a record: the same one, another one, one that is not there
        8 | 9 if cap > 0 => {
            let b = rng.below(cap);
            let at = 128 + 128 * b + 64;
            let to = match rng.below(4) {
                0 => 16384 + b,
                1 => 16384 + rng.below(cap),
                2 => rng.below(cap),
                _ => odd_number(rng, cap),
            };
            let place = if rng.chance(70) { rng.below(2) } else { rng.below(17) };
            put2(s, at + 4 + 3 * place, to);
            if rng.chance(40) && at + 4 + 3 * place + 2 < n {
                s[at + 4 + 3 * place + 2] = rng.next() as u8 % 130;
            }
            if rng.chance(30) {
                put2(s, at, rng.next() as usize);
            }
        }
        // a chain of free records, a size
        10 if cap > 0 => {
            let at = 128 + 128 * rng.below(cap) + *rng.pick(&[68, 119, 120]);
            let v = odd_number(rng, cap);
            put2(s, at, v);
        }
        11 if cap > 1 => {
            let (a, b) = (rng.below(cap), rng.below(cap));
            let (from, to) = *rng.pick(&[(0, 128), (0, 64), (64, 119), (119, 124)]);
            for i in from..to {
                if 128 + 128 * (a.max(b)) + i < n {
                    s.swap(128 + 128 * a + i, 128 + 128 * b + i);
                }
            }
        }
        _ => {}
    }
}

fn any_key(rng: &mut Rng, keys: &[Key]) -> Key {
    let mut k = if keys.is_empty() { vec![] } else { rng.pick(keys).clone() };
    match rng.below(8) {
        0 => k.push(rng.next() as u8),
        1 => {
            k.pop();
        }
        2 => k = (0..rng.below(67)).map(|_| rng.next() as u8).collect(),
        _ => {}
    }
    k
}

// The calls on one damaged store, and the bytes it starts with.
pub fn damaged(rng: &mut Rng, good: &[u8], keys: &[Key]) -> (Vec<u8>, Vec<Call>) {
    let own = rng.chance(40);
    let mut bytes = match own {
        true if rng.chance(3) => ladder(rng),
        true => built(rng, keys),
        false => good.to_vec(),
    };
    for _ in 0..if own { rng.below(8) / 7 } else { 1 + rng.below(3) } {
        hurt(rng, &mut bytes);
    }
    let len = bytes.len();
    let mut calls = vec![Call::Space(len)];
    calls.extend(load(&bytes));
    calls.extend([Call::Check, Call::Hash, Call::IsEmpty]);
    for _ in 0..3 {
        calls.push(Call::Get(any_key(rng, keys)));
        let n = 1 + rng.below(5) as u32;
        let prefix = if rng.chance(60) { vec![] } else { any_key(rng, keys) };
        let page = Page {
            inclusive: rng.chance(50),
            n,
            room: 74 * n as usize,
            prefix,
        };
        calls.push(if rng.chance(50) {
            Call::First(page)
        } else {
            Call::Next(page, any_key(rng, keys))
        });
    }
    calls.push(Call::Hash);
    for _ in 0..6 {
        let k = any_key(rng, keys);
        let v = rng.next() as u32;
        calls.push(match rng.below(12) {
            0..=4 => Call::Insert(k, v),
            5..=8 => Call::Remove(k),
            9 | 10 => Call::Overwrite(k, v),
            _ => Call::Limit(v as u16),
        });
        calls.extend([Call::Check, Call::Hash]);
        calls.extend(dumps(len));
    }
    if rng.chance(5) {
        calls.extend([Call::Create(3), Call::Check, Call::Hash]);
        calls.extend(dumps(len));
    }
    (bytes, calls)
}

// Document 01 leaves the header to the team: the mark, the slice's capacity, and no more records in use than there are.
fn header_right(s: &[u8]) -> bool {
    let two = |at: usize| s[at] as usize + 256 * s[at + 1] as usize;
    s.len() >= 256 && s[..4] == *b"PQP1" && two(4) == capacity(s.len()) && two(8) <= two(4) && two(10) <= two(4)
}

fn model_of(s: &[u8]) -> Option<Model> {
    let (limit, map) = accepted(s)?;
    Some(Model {
        len: s.len(),
        store: Some(Store {
            capacity: capacity(s.len()),
            limit,
            map,
        }),
    })
}

// Compares what replay answered on one damaged store.
pub fn compare(bytes: &[u8], calls: &[Call], out: &[u8]) -> Option<Difference> {
    let answers = split(calls, out);
    let mut now = bytes.to_vec();
    let mut model = model_of(&now);
    let mut changing = None;
    let mut after: Vec<u8> = vec![];
    let mut late: Vec<(usize, u64)> = vec![];
    let mut checks: Vec<(usize, u8)> = vec![];
    for (i, call) in calls.iter().enumerate() {
        let Some(answer) = answers.get(i) else {
            return Some((i, "no answer, or bytes behind the last one".into()));
        };
        let number = answer.first().copied().unwrap_or(0);
        match call {
            Call::Space(_) | Call::Write(..) => {}
            Call::Check => checks.push((i, number)),
            Call::Hash => late.push((i, u64::from_le_bytes((*answer).try_into().unwrap()))),
            Call::Dump(at, n) => {
                after.extend_from_slice(answer);
                if at + n < bytes.len() {
                    continue;
                }
                if changing.is_some_and(|a| a >= 10) && after != now {
                    return Some((i, "a refusal changed bytes".into()));
                }
                let end = 128 * (capacity(bytes.len()) + 1);
                if bytes.len() > end && after[end..] != bytes[end..] {
                    return Some((i, "bytes past the last record were written".into()));
                }
                now = std::mem::take(&mut after);
                changing = None;
                let found = model_of(&now);
                if let Some(m) = &model {
                    if found.as_ref().and_then(|f| f.store.as_ref()).map(|f| (&f.map, f.limit)) != m.store.as_ref().map(|s| (&s.map, s.limit)) {
                        return Some((i, "the bytes hold another map or limit than the model".into()));
                    }
                }
                model = found;
            }
            _ => {
                let right = header_right(&now);
                if let Some(m) = &mut model {
                    let wanted = m.call(call);
                    if wanted != *answer {
                        return Some((i, format!("by document 01 {wanted:02X?}, by replay {answer:02X?}")));
                    }
                } else if !matches!(call, Call::Create(_)) {
                    let long = match call {
                        Call::Insert(k, _) | Call::Get(k) | Call::Overwrite(k, _) | Call::Remove(k) => k.len() > 64,
                        Call::First(p) => p.prefix.len() > 64,
                        Call::Next(p, a) => p.prefix.len() > 64 || a.len() > 64,
                        _ => false,
                    };
                    if !right && number != STORE {
                        return Some((i, format!("a wrong header, and the answer is {number}")));
                    }
                    if right && long && number != KEY {
                        return Some((i, format!("a key that is too long, and the answer is {number}")));
                    }
                    if number >= 10
                        && answer[1..]
                            .iter()
                            .rev()
                            .skip(matches!(call, Call::First(_) | Call::Next(..)) as usize)
                            .any(|b| *b != 0)
                    {
                        return Some((i, "a refusal with a value beside it".into()));
                    }
                }
                if matches!(call, Call::First(_) | Call::Next(..)) && answer.last() != Some(&1) {
                    return Some((i, "output past the page was written".into()));
                }
                if matches!(
                    call,
                    Call::Insert(..) | Call::Overwrite(..) | Call::Remove(_) | Call::Limit(_) | Call::Create(_)
                ) {
                    changing = Some(number);
                    // whatever the bytes were, a creation is done exactly if there is room, and leaves an empty store
                    if let Call::Create(_) = call {
                        let mut made = Model { len: now.len(), store: None };
                        let wanted = made.call(call);
                        if wanted != *answer {
                            return Some((i, format!("by document 01 {wanted:02X?}, by replay {answer:02X?}")));
                        }
                        if number == 0 {
                            model = Some(made);
                        }
                    }
                }
            }
        }
        // hashes and checks that stand before a dump are of its bytes
        let settled = changing.is_none() && after.is_empty();
        if settled {
            let h = hash(&now);
            if let Some((i, _)) = late.iter().find(|x| x.1 != h) {
                return Some((*i, "a read changed bytes, or the guard was written".into()));
            }
            let wanted = if accepted(&now).is_some() { 0 } else { STORE };
            if let Some((i, said)) = checks.iter().find(|x| x.1 != wanted) {
                return Some((*i, format!("the check answers {said}, the separate checker {wanted}")));
            }
            late.clear();
            checks.clear();
        }
    }
    None
}

// Fewer calls on the same bytes that still show a difference. A call that changes the store goes with the check, the hash and the dump behind it.
pub fn shorten(replay: &Replay, bytes: &[u8], calls: &[Call]) -> Vec<Call> {
    let differs = |calls: &[Call]| match replay.run(calls) {
        Err(_) => true,
        Ok(out) => compare(bytes, calls, &out).is_some(),
    };
    let mut groups: Vec<Vec<Call>> = vec![];
    for call in calls {
        let tail = matches!(call, Call::Write(..) | Call::Check | Call::Hash | Call::Dump(..));
        match groups.last_mut() {
            Some(g) if tail => g.push(call.clone()),
            _ => groups.push(vec![call.clone()]),
        }
    }
    let mut at = groups.len();
    while at > 1 {
        at -= 1;
        let out = groups.remove(at);
        if !differs(&groups.concat()) {
            groups.insert(at, out);
        }
    }
    groups.concat()
}
