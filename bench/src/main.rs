// Measures this index, the Rust original and the standard library's tree on the same keys, in one run: nanoseconds by the clock, and instructions by callgrind.
// bench/README.md says what is measured and how.
mod keys;
mod maps;
mod report;
#[allow(dead_code)]
#[path = "../../oracle/src/rng.rs"]
mod rng;

use keys::{Key, Keys};
use maps::{Index, Map, Original, Tree};
use rng::Rng;
use std::hint::black_box;
use std::time::Instant;

pub const OPERATIONS: [&str; 7] = ["insert", "get hit", "get miss", "overwrite", "full listing", "study listing", "remove"];
pub const MAPS: [&str; 3] = ["index", "original", "tree"];

// ---- what is measured: each loop is a function of its own, which callgrind counts by its name

#[inline(never)]
fn measured_insert<M: Map>(map: &mut M, keys: &mut [Key]) -> usize {
    keys.iter_mut().enumerate().filter_map(|(i, key)| map.insert(key, i as u32).then_some(())).count()
}

#[inline(never)]
fn measured_get_hit<M: Map>(map: &M, keys: &[Key]) -> usize {
    keys.iter().filter(|key| black_box(map.get(key)).is_some()).count()
}

#[inline(never)]
fn measured_get_miss<M: Map>(map: &M, keys: &[Key]) -> usize {
    keys.iter().filter(|key| black_box(map.get(key)).is_none()).count()
}

#[inline(never)]
fn measured_overwrite<M: Map>(map: &mut M, keys: &[Key]) -> usize {
    keys.iter().filter(|key| map.overwrite(key, 7)).count()
}

#[inline(never)]
fn measured_full_listing<M: Map>(map: &M, prefix: &Key) -> usize {
    map.list(prefix)
}

#[inline(never)]
fn measured_study_listing<M: Map>(map: &M, prefix: &Key) -> usize {
    // not the same code as a full listing's, or the compiler makes one function of the two
    map.list(black_box(prefix))
}

#[inline(never)]
fn measured_remove<M: Map>(map: &mut M, keys: &[Key]) -> usize {
    keys.iter().filter(|key| map.remove(key)).count()
}

// How many keys an operation was over, and the nanoseconds that it took.
pub type Took = (usize, f64);

fn timed(work: impl FnOnce() -> usize) -> Took {
    let began = Instant::now();
    let count = work();
    (count, began.elapsed().as_nanos() as f64)
}

// All operations on one map, each once. A map that keeps keys is given copies: what these cost is not counted. Where it is timed, an operation that can be
// repeated is done once before, so that a map's memory is as warm as it gets.
fn round<M: Map>(keys: &Keys, timing: bool) -> [Took; 7] {
    let again = |work: &mut dyn FnMut() -> usize| {
        if timing {
            work();
        }
        timed(work)
    };
    let mut own = keys.stored.clone();
    let mut order = keys.stored.clone();
    Rng::new(11).shuffle(&mut order);
    let mut map = M::new(own.len());
    let insert = timed(|| measured_insert(&mut map, &mut own));
    let get_hit = again(&mut || measured_get_hit(&map, &order));
    let get_miss = again(&mut || measured_get_miss(&map, &keys.missing));
    let overwrite = again(&mut || measured_overwrite(&mut map, &order));
    // an empty prefix with memory of its own: the pointer of one without is no address, and comparing no byte there takes a processor a hundred nanoseconds
    let nothing = Vec::with_capacity(1);
    let full = again(&mut || measured_full_listing(&map, &nothing));
    // a study has few keys: so often that the clock's own time does not count
    let study = again(&mut || (0..64).map(|_| measured_study_listing(&map, &keys.study)).sum());
    Rng::new(13).shuffle(&mut order);
    let remove = timed(|| measured_remove(&mut map, &order));
    let all = [insert, get_hit, get_miss, overwrite, full, study, remove];
    for (operation, took) in OPERATIONS.iter().zip(&all) {
        assert!(took.0 == keys.stored.len() || *operation == "study listing" && took.0 > 0, "{operation} did {} of {}", took.0, keys.stored.len());
    }
    all
}

pub fn round_of(map: &str, keys: &Keys, timing: bool) -> [Took; 7] {
    match map {
        "index" => round::<Index>(keys, timing),
        "original" => round::<Original>(keys, timing),
        "tree" => round::<Tree>(keys, timing),
        _ => panic!("no map is called {map}"),
    }
}

fn main() {
    let args: Vec<String> = std::env::args().collect();
    match args.iter().map(String::as_str).collect::<Vec<_>>()[1..] {
        // one round for callgrind; prints how many keys each operation was over
        ["round", map, set, count] => {
            let keys = Keys::named(set, count.parse().expect("a number of keys"));
            for (operation, took) in OPERATIONS.iter().zip(round_of(map, &keys, false)) {
                println!("{operation}\t{}", took.0);
            }
        }
        ["report"] => report::report(),
        ["targets"] => report::targets(),
        _ => {
            eprintln!("usage: bench report | targets | round MAP SET COUNT");
            std::process::exit(2);
        }
    }
}
