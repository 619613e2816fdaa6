// Compares the program replay, and so the crate index, with a model, a checker and the Rust original. oracle/README.md says what is compared.
mod build;
mod checker;
mod damage;
mod generate;
mod model;
mod original;
mod replay;
mod rng;
mod script;
mod sequences;

use generate::{largest, sequence, Sequence};
use replay::Replay;
use rng::Rng;
use script::{dumps, split, Call, Key};
use std::time::Instant;

#[derive(Default)]
struct Count {
    calls: usize,
    stores: usize,
    damaged: usize,
    // those that are stores all the same
    accepted: usize,
    listings: usize,
    pages: usize,
}

fn pages(calls: &[Call]) -> usize {
    calls.iter().filter(|c| matches!(c, Call::First(_) | Call::Next(..))).count()
}

fn made(calls: &[Call]) -> usize {
    calls
        .iter()
        .filter(|c| !matches!(c, Call::Space(_) | Call::Write(..) | Call::Hash | Call::Dump(..)))
        .count()
}

fn fail(what: &str, calls: &[Call], why: &str) -> ! {
    eprintln!("oracle: DIFFERENCE: {what}: {why}");
    eprintln!("oracle: the shortest script found, {} calls:", calls.len());
    for call in calls.iter().take(200) {
        eprintln!("    {call:02X?}");
    }
    std::process::exit(1);
}

// A batch of sequences in one run of replay.
fn batch(replay: &Replay, count: &mut Count, sequences: &[Sequence]) {
    let calls: Vec<Call> = sequences.iter().flat_map(|s| s.calls.iter().cloned()).collect();
    let difference = match replay.run(&calls) {
        Err(why) => Some((calls.len() - 1, why)),
        Ok(out) => sequences::compare(&calls, &out),
    };
    if let Some((at, why)) = difference {
        let start = calls[..=at].iter().rposition(|c| matches!(c, Call::Space(_))).unwrap_or(0);
        let from = if replay
            .run(&calls[start..=at])
            .is_ok_and(|out| sequences::compare(&calls[start..=at], &out).is_none())
        {
            0
        } else {
            start
        };
        let short = sequences::shorten(replay, &calls[from..=at]);
        let again = replay.run(&short).ok().and_then(|out| sequences::compare(&short, &out)).map_or(why, |d| d.1);
        fail("replay and document 01", &short, &again);
    }
    for s in sequences {
        if let Some((_, why)) = sequences::compare_original(&s.calls) {
            let short = sequences::shorten_by(&s.calls, &|c| sequences::compare_original(c).map(|d| d.0 + 1));
            fail("the Rust original and document 01", &short, &why);
        }
        count.stores += 1;
        count.listings += s.listings;
    }
    count.calls += made(&calls);
    count.pages += pages(&calls);
}

// Good stores of a few records, with the keys that were tried on them.
fn good(replay: &Replay, rng: &mut Rng, n: usize) -> Vec<(Vec<u8>, Vec<Key>)> {
    let mut calls = vec![];
    let mut keys = vec![];
    let mut ends = vec![];
    for _ in 0..n {
        let capacity = if rng.chance(10) { 9 + rng.below(20) } else { 1 + rng.below(8) };
        let turns = 4 + rng.below(40);
        let mut s = sequence(rng, capacity, turns).calls;
        let cut = s.iter().position(|c| matches!(c, Call::Create(_))).unwrap() + 1;
        s.truncate(cut + rng.below(s.len() - cut + 1));
        let Call::Space(len) = s[0] else { unreachable!() };
        keys.push(
            s.iter()
                .filter_map(|c| if let Call::Insert(k, _) = c { Some(k.clone()) } else { None })
                .collect(),
        );
        calls.extend(s);
        calls.extend(dumps(len));
        ends.push(calls.len() - 1);
    }
    let out = replay.run(&calls).unwrap_or_else(|e| fail("good stores", &[], &e));
    let answers = split(&calls, &out);
    ends.iter().map(|e| answers[*e].to_vec()).zip(keys).collect()
}

fn damaged(replay: &Replay, count: &mut Count, rng: &mut Rng, stores: usize, each: usize) {
    for (bytes, keys) in good(replay, rng, stores) {
        let cases: Vec<_> = (0..each).map(|_| damage::damaged(rng, &bytes, &keys)).collect();
        let calls: Vec<Call> = cases.iter().flat_map(|c| c.1.iter().cloned()).collect();
        let out = replay.run(&calls);
        let mut answers = out.as_ref().map(|out| split(&calls, out)).unwrap_or_default().into_iter();
        for (start, case) in &cases {
            let one = match &out {
                Ok(_) => Ok(answers.by_ref().take(case.len()).collect::<Vec<_>>().concat()),
                Err(_) => replay.run(case),
            };
            let why = match one {
                Err(why) => Some(why),
                Ok(one) => damage::compare(start, case, &one).map(|d| d.1),
            };
            count.accepted += checker::accepted(start).is_some() as usize;
            if let Some(why) = why {
                let short = damage::shorten(replay, start, case);
                let again = replay
                    .run(&short)
                    .ok()
                    .and_then(|out| damage::compare(start, &short, &out))
                    .map_or(why, |d| format!("the call {:02X?}: {}", short[d.0], d.1));
                fail("a damaged store", &short, &again);
            }
            count.damaged += 1;
        }
        count.calls += made(&calls);
        count.pages += pages(&calls);
    }
}

fn main() {
    let mut args = std::env::args().skip(1);
    let folder = args.next().expect("usage: oracle FOLDER [--long] [--seed N] [--record FOLDER] -- PROGRAM..");
    let (mut long, mut seed, mut record) = (false, 1, None);
    while let Some(a) = args.next() {
        match a.as_str() {
            "--long" => long = true,
            "--seed" => seed = args.next().and_then(|s| s.parse().ok()).expect("a number behind --seed"),
            "--record" => record = args.next(),
            _ => break,
        }
    }
    let replay = Replay {
        command: args.collect(),
        folder: folder.into(),
        seconds: 240,
    };
    let began = Instant::now();
    let mut count = Count::default();
    let mut rng = Rng::new(seed);
    if let Some(to) = record {
        recorded(&replay, &mut rng, &to);
        return;
    }
    let batches = if long { 400 } else { 24 };
    for i in 0..batches {
        let sequences: Vec<Sequence> = (0..150)
            .map(|j| match j {
                0 => sequence(&mut rng, 511, 3000),
                1 => sequence(&mut rng, 200, 1000),
                _ => sequence(&mut rng, 1 + (i * 150 + j) % 40, 60 + j),
            })
            .collect();
        batch(&replay, &mut count, &sequences);
    }
    for _ in 0..if long { 20 } else { 2 } {
        let s = largest(&mut rng);
        batch(&replay, &mut count, &[s]);
    }
    let (stores, each) = if long { (4000, 100) } else { (250, 60) };
    damaged(&replay, &mut count, &mut rng, stores, each);
    println!(
        "oracle: {} calls, {} stores, {} made or damaged stores ({} of them accepted), {} whole listings, {} pages, the Rust original {}: no difference, {:.1} s (seed {seed})",
        count.calls,
        count.stores,
        count.damaged,
        count.accepted,
        count.listings,
        count.pages,
        if original::PRESENT { "compared" } else { "NOT compared" },
        began.elapsed().as_secs_f64()
    );
}

// A sample for the program's stdin and stdout files: the model's answers, with which the Rust original and replay agree.
fn recorded(replay: &Replay, rng: &mut Rng, to: &str) {
    if !original::PRESENT {
        eprintln!("oracle: no sample is recorded without the Rust original");
        std::process::exit(1);
    }
    let mut calls = vec![];
    let mut wanted = vec![];
    let mut model = model::Model::default();
    let mut i = 0;
    while script::encode(&calls).len() < 150_000 {
        let mut s = sequence(rng, 1 + i % 40, 150);
        s.calls.retain(|c| !matches!(c, Call::Hash | Call::Dump(..)));
        if let Some((_, why)) = sequences::compare_original(&s.calls) {
            fail("the Rust original and document 01", &s.calls, &why);
        }
        for call in &s.calls {
            wanted.extend(model.call(call));
        }
        calls.extend(s.calls);
        i += 1;
    }
    let out = replay.run(&calls).unwrap_or_else(|e| fail("the sample", &[], &e));
    if out != wanted {
        fail("the sample", &[], "replay answers something else");
    }
    let folder = std::path::Path::new(to);
    std::fs::write(folder.join("stdin"), script::encode(&calls)).unwrap();
    std::fs::write(folder.join("stdout"), &wanted).unwrap();
    println!(
        "oracle: recorded {} calls in {} + {} bytes",
        made(&calls),
        script::encode(&calls).len(),
        wanted.len()
    );
}
