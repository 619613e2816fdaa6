// The keys of the measurements, from a seed.
use crate::rng::Rng;

pub type Key = Vec<u8>;

pub struct Keys {
    // what is stored, in the order in which it is inserted
    pub stored: Vec<Key>,
    // as many that are not
    pub missing: Vec<Key>,
    // a prefix of some of the stored keys: one study
    pub study: Key,
}

fn digits(rng: &mut Rng, count: usize) -> String {
    (0..count).map(|i| char::from(b'0' + if i == 0 { 1 + rng.below(9) } else { rng.below(10) } as u8)).collect()
}

// Identifiers as scanners and archives make them, of 30 to 62 bytes: studies of some series of some hundred slices, numbered one after the other or at random.
fn identifiers(rng: &mut Rng, count: usize) -> (Vec<Key>, Key) {
    const MAKERS: [&str; 4] = ["1.2.840.113619.2", "1.3.12.2.1107.5", "1.3.46.670589.11", "2.16.840.1.113669"];
    let mut keys = Vec::with_capacity(count);
    let mut first = None;
    while keys.len() < count {
        let maker = MAKERS[rng.below(4)];
        let len = 4 + rng.below(7);
        let study = format!("{maker}.{}.{}.{}", 1 + rng.below(400), 1 + rng.below(9), digits(rng, len));
        first.get_or_insert_with(|| study.clone().into_bytes());
        for _ in 0..1 + rng.below(4) {
            let archived = rng.chance(50);
            let len = 4 + rng.below(6);
            let series = format!("{study}.{}", digits(rng, len));
            for slice in 1..=50 + rng.below(150) {
                let room = 61 - series.len();
                let size = room - rng.below(room.min(12));
                let tail = if archived { digits(rng, size) } else { slice.to_string() };
                keys.push(format!("{series}.{tail}").into_bytes());
            }
        }
    }
    keys.truncate(count);
    assert!(keys.iter().all(|key| (30..=62).contains(&key.len())), "an identifier has other than 30 to 62 bytes");
    (keys, first.unwrap())
}

fn random(rng: &mut Rng, count: usize) -> Vec<Key> {
    (0..count).map(|_| (0..16).map(|_| rng.next() as u8).collect()).collect()
}

// One key of 64 bytes, and a key that leaves it at each of its first nibbles: so many branches on one path.
fn comb(rng: &mut Rng, depth: usize) -> Vec<Key> {
    let stem: Key = (0..64).map(|_| rng.next() as u8).collect();
    let mut keys: Vec<Key> = (0..depth)
        .map(|p| {
            let mut key = stem.clone();
            key[p / 2] ^= if p % 2 == 0 { 0x10 } else { 1 };
            key
        })
        .collect();
    keys.push(stem);
    keys
}

impl Keys {
    pub fn named(set: &str, count: usize) -> Keys {
        let rng = &mut Rng::new(7);
        let (mut all, study) = match set {
            "identifiers" => identifiers(rng, 2 * count),
            "random" => {
                let keys = random(rng, 2 * count);
                let study = keys[0][..1].to_vec();
                (keys, study)
            }
            "comb" => {
                let mut keys = comb(rng, count);
                let study = keys[count][..1].to_vec();
                let mut missing: Vec<Key> = keys.iter().map(|k| [&k[..63], &[k[63] ^ 0x22]].concat()).collect();
                keys.append(&mut missing);
                (keys, study)
            }
            _ => panic!("no set of keys is called {set}"),
        };
        // of the identifiers every second one is stored, so that a missing one lies beside it
        let mut missing = if set == "comb" {
            all.split_off(count + 1)
        } else {
            let (mut stored, mut missing) = (vec![], vec![]);
            for (i, key) in all.drain(..).enumerate() {
                if i % 2 == 0 { stored.push(key) } else { missing.push(key) }
            }
            all = stored;
            missing
        };
        rng.shuffle(&mut all);
        rng.shuffle(&mut missing);
        Keys { stored: all, missing, study }
    }
}
