//! The call sequences of the comparison with the Rust original (oracle/), from the same seed, made through this crate: every answer is that of document 01's
//! rules over a sorted map, with which the original agrees on the same sequences. The largest store has a sequence of the same making.
// What these modules have is used by the comparison; this test needs a part of it.
#[allow(dead_code)]
#[path = "../../../oracle/src/generate.rs"]
mod generate;
#[allow(dead_code)]
#[path = "../../../oracle/src/model.rs"]
mod model;
#[allow(dead_code)]
#[path = "../../../oracle/src/rng.rs"]
mod rng;
#[allow(dead_code)]
#[path = "../../../oracle/src/script.rs"]
mod script;

use generate::{largest, sequence};
use model::Model;
use ponybollard::{Error, Inserted, Mode, Page as Given, Store};
use rng::Rng;
use script::{Call, Page};

fn number<T>(done: Result<T, Error>) -> Vec<u8> {
    vec![done.err().map_or(0, |e| e.number() as u8)]
}

// As the program replay writes a page: the last byte says that the output past the entries is as it was.
fn page(given: Result<Given<'_>, Error>) -> Vec<u8> {
    let (answer, count, fields, end) = match &given {
        Err(e) => (e.number() as u8, 0, &[][..], false),
        Ok(page) => (0, page.len(), page.as_bytes(), page.is_end()),
    };
    let mut told = vec![answer];
    told.extend_from_slice(&(count as u16).to_le_bytes());
    told.extend_from_slice(&(fields.len() as u32).to_le_bytes());
    told.push(end as u8);
    told.extend_from_slice(fields);
    told
}

fn paged(p: &Page, fetch: impl FnOnce(Mode, &mut [u8]) -> Vec<u8>) -> Vec<u8> {
    let mode = if p.inclusive { Mode::Inclusive } else { Mode::Plain };
    let mut out = vec![0xA5; p.room];
    let mut told = fetch(mode, &mut out);
    let written = told.len() - 8;
    told.push(out[written..].iter().all(|b| *b == 0xA5) as u8);
    told
}

// What the calls answer on the bytes, as the program replay writes it. The bytes are opened anew for each call, which makes the check.
fn call(bytes: &mut Vec<u8>, call: &Call) -> Vec<u8> {
    match call {
        Call::Space(len) => {
            *bytes = vec![0; *len];
            return vec![];
        }
        Call::Write(..) | Call::Hash | Call::Dump(..) => return vec![],
        Call::Create(limit) => return number(Store::create(bytes, *limit)),
        _ => {}
    }
    match Store::open(bytes) {
        Ok(mut store) => answer(&mut store, call),
        Err(e) => {
            let refused = e.number() as u8;
            match call {
                Call::IsEmpty => vec![refused, 0],
                Call::Get(_) => vec![refused, 0, 0, 0, 0],
                Call::First(p) | Call::Next(p, _) => paged(p, |_, _| page(Err(e))),
                _ => vec![refused],
            }
        }
    }
}

// The same on a store.
fn answer(store: &mut Store<'_>, call: &Call) -> Vec<u8> {
    match call {
        Call::Check => number(store.check()),
        Call::IsEmpty => vec![0, store.is_empty() as u8],
        Call::Limit(limit) => number(store.set_limit(*limit)),
        Call::Insert(key, value) => match store.insert(key, *value) {
            Ok(Inserted::Replaced) => vec![1],
            other => number(other),
        },
        Call::Get(key) => {
            let got = store.get(key);
            [number(got), got.unwrap_or(0).to_le_bytes().to_vec()].concat()
        }
        Call::Overwrite(key, value) => number(store.overwrite(key, *value)),
        Call::Remove(key) => number(store.remove(key)),
        Call::First(p) => paged(p, |mode, out| page(store.first_page(&p.prefix, mode, p.n, out))),
        Call::Next(p, after) => paged(p, |mode, out| page(store.next_page(&p.prefix, mode, after, p.n, out))),
        _ => vec![],
    }
}

fn same(calls: &[Call]) -> usize {
    let (mut bytes, mut model) = (vec![], Model::default());
    for (i, c) in calls.iter().enumerate() {
        assert_eq!(call(&mut bytes, c), model.call(c), "call {i}: {c:?}");
    }
    calls.len()
}

#[test]
fn sequences_of_the_comparison() {
    let mut rng = Rng::new(1);
    let mut calls = 0;
    for i in 0..24 {
        for j in 0..150 {
            let s = match j {
                0 => sequence(&mut rng, 511, 3000),
                1 => sequence(&mut rng, 200, 1000),
                _ => sequence(&mut rng, 1 + (i * 150 + j) % 40, 60 + j),
            };
            calls += same(&s.calls);
        }
    }
    println!("{calls} calls");
}

#[test]
fn listings_by_the_iterator() {
    let mut rng = Rng::new(3);
    let mut bytes = vec![0; ponybollard::store_size(400)];
    let mut store = Store::create(&mut bytes, ponybollard::NO_LIMIT).unwrap();
    let mut map = std::collections::BTreeMap::new();
    for turn in 0..2000u32 {
        let key: Vec<u8> = (0..rng.below(5)).map(|_| *rng.pick(&[0, 1, 0x10, 0xFF])).collect();
        if rng.chance(70) {
            store.insert(&key, turn).unwrap();
            map.insert(key, turn);
        } else {
            assert_eq!(store.remove(&key).is_ok(), map.remove(&key).is_some());
        }
        let prefix: Vec<u8> = (0..rng.below(3)).map(|_| *rng.pick(&[0, 1, 0x10, 0xFF])).collect();
        for inclusive in [false, true] {
            let listing = store.prefix_iter(&prefix).unwrap();
            let listing = if inclusive { listing.include_prefix() } else { listing };
            let wanted = map.iter().filter(|e| e.0.starts_with(&prefix) && (inclusive || *e.0 != prefix));
            assert!(listing.map(|e| (e.0.to_vec(), e.1)).eq(wanted.map(|e| (e.0.clone(), *e.1))));
        }
    }
    assert_eq!(store.is_empty(), map.is_empty());
    assert!(format!("{store:?}").starts_with("{b\""));
    assert_eq!(store.prefix_iter(&[0; 65]).err(), Some(Error::Key));
}

// The store of the largest capacity, with one `Store` for all calls: a check for each would take too long.
#[test]
fn largest_store() {
    let calls = largest(&mut Rng::new(2)).calls;
    let Call::Space(len) = calls[0] else { panic!("a sequence begins with its space") };
    let (mut bytes, mut model) = (vec![0; len], Model::default());
    model.call(&calls[0]);
    model.call(&calls[1]);
    let mut store = Store::create(&mut bytes, ponybollard::NO_LIMIT).unwrap();
    for (i, c) in calls.iter().enumerate().skip(2) {
        if !matches!(c, Call::Dump(..)) {
            assert_eq!(answer(&mut store, c), model.call(c), "call {i}: {c:?}");
        }
    }
}
