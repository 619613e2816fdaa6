// The report in Markdown, and the test of the targets.
use crate::keys::Keys;
use crate::maps::{Index, Map};
use crate::{round_of, MAPS, OPERATIONS};
use std::collections::BTreeMap;
use std::process::Command;
use std::time::Instant;

const SETS: [(&str, usize); 9] = [
    ("identifiers", 500),
    ("identifiers", 4096),
    ("identifiers", 16384),
    ("random", 500),
    ("random", 4096),
    ("random", 16384),
    ("comb", 16),
    ("comb", 64),
    ("comb", 128),
];

// The set for which targets are set, and the most that each operation may cost, as a ratio to the Rust original.
const TARGET_SET: (&str, usize) = ("identifiers", 4096);
const TARGETS: [(&str, f64); 7] = [
    ("insert", 0.75),
    ("get hit", 1.2),
    ("get miss", 1.1),
    ("overwrite", 1.2),
    ("full listing", 0.8),
    ("study listing", 0.8),
    ("remove", 0.75),
];

// Per map, the cost of each operation for one key.
type Costs = BTreeMap<&'static str, Vec<f64>>;

// Nanoseconds: rounds of the three maps one after the other, and of each operation the middle one.
fn nanoseconds(set: (&str, usize)) -> Costs {
    let keys = Keys::named(set.0, set.1);
    let rounds = (400_000 / set.1).clamp(15, 2001);
    let mut all: BTreeMap<&str, Vec<Vec<f64>>> = BTreeMap::new();
    for i in 0..rounds + 2 {
        for map in MAPS {
            let took = round_of(map, &keys, true);
            // the first rounds warm up
            if i >= 2 {
                let each = all.entry(map).or_insert_with(|| vec![vec![]; OPERATIONS.len()]);
                for (all, one) in each.iter_mut().zip(took) {
                    all.push(one.1 / one.0 as f64);
                }
            }
        }
    }
    let middle = |mut costs: Vec<f64>| {
        costs.sort_by(f64::total_cmp);
        costs[costs.len() / 2]
    };
    all.into_iter().map(|(map, each)| (map, each.into_iter().map(middle).collect())).collect()
}

// Instructions, by callgrind, of one round of each map; None where there is no valgrind.
fn instructions(set: (&str, usize)) -> Option<Costs> {
    let program = std::env::current_exe().unwrap();
    let mut all = Costs::new();
    for map in MAPS {
        let file = program.with_file_name(format!("callgrind.{map}"));
        let run = Command::new("valgrind")
            .args(["--tool=callgrind", "--quiet"])
            .arg(format!("--callgrind-out-file={}", file.display()))
            .arg(&program)
            .args(["round", map, set.0, &set.1.to_string()])
            .output()
            .ok()?;
        assert!(run.status.success(), "the round under callgrind failed: {}", String::from_utf8_lossy(&run.stderr));
        let counts: Vec<f64> = String::from_utf8(run.stdout).unwrap().lines().map(|l| l.split('\t').nth(1).unwrap().parse().unwrap()).collect();
        let profile = std::fs::read_to_string(&file).unwrap();
        let each = OPERATIONS.iter().zip(counts);
        all.insert(map, each.map(|(operation, count)| inclusive(&profile, &format!("measured_{}", operation.replace(' ', "_"))) / count).collect());
    }
    Some(all)
}

// What the one call of a function cost, with all that it called: in a profile, `cfn=` names who is called, `calls=` follows, and then a line and its cost.
// A name stands behind its number once; from then on the number stands alone.
fn inclusive(profile: &str, name: &str) -> f64 {
    let mut number = None;
    let mut lines = profile.lines();
    let mut cost = None;
    while let Some(line) = lines.next() {
        let named = line.strip_prefix("cfn=").or_else(|| line.strip_prefix("fn="));
        let Some(called) = named else { continue };
        let id = called.split(' ').next().unwrap();
        if called.contains(name) {
            number = Some(id);
        }
        if line.starts_with("cfn=") && number == Some(id) {
            let _calls = lines.next();
            let line = lines.next().unwrap();
            *cost.get_or_insert(0.0) += line.split(' ').nth(1).unwrap().parse::<f64>().unwrap();
        }
    }
    cost.unwrap_or_else(|| panic!("callgrind counted no call of {name}"))
}

fn table(costs: &Costs, unit: &str) {
    println!("| operation | index, {unit} | original, {unit} | tree, {unit} | index / original | index / tree |");
    println!("|---|--:|--:|--:|--:|--:|");
    for (i, operation) in OPERATIONS.iter().enumerate() {
        let [index, original, tree] = MAPS.map(|map| costs[map][i]);
        println!("| {operation} | {index:.0} | {original:.0} | {tree:.0} | {:.2} | {:.2} |", index / original, index / tree);
    }
    println!();
}

fn told(program: &str, args: &[&str]) -> String {
    Command::new(program).args(args).output().map_or("unknown".into(), |o| String::from_utf8_lossy(&o.stdout).trim().to_string())
}

fn processor() -> String {
    let info = std::fs::read_to_string("/proc/cpuinfo").unwrap_or_default();
    let name = info.lines().find(|l| l.starts_with("model name"));
    name.and_then(|l| l.split(": ").nth(1)).map_or_else(|| told("uname", &["-m"]), str::to_string)
}

fn name_of(set: (&str, usize)) -> String {
    match set.0 {
        "identifiers" => format!("{} identifiers of 30 to 62 bytes", set.1),
        "random" => format!("{} random keys of 16 bytes", set.1),
        _ => format!("a comb of depth {}", set.1),
    }
}

// What the making of a store costs for each of its records, in nanoseconds: the middle one of some times.
fn creation(count: usize) -> f64 {
    let mut index = Index::new(count);
    let mut all: Vec<f64> = (0..101)
        .map(|_| {
            let began = Instant::now();
            index.create();
            began.elapsed().as_nanos() as f64 / count as f64
        })
        .collect();
    all.sort_by(f64::total_cmp);
    all[all.len() / 2]
}

// What a target asks of an operation, and whether it is met: no more than so much of the original's time, and less than the tree's.
fn verdict(costs: &Costs, i: usize) -> (f64, f64, f64, &'static str) {
    let most = TARGETS.iter().find(|t| t.0 == OPERATIONS[i]).unwrap().1;
    let [index, original, tree] = MAPS.map(|map| costs[map][i]);
    let verdict = match (index <= most * original, index < tree) {
        (true, true) => "met",
        (true, false) => "missed: the tree is not slower",
        (false, true) => "missed",
        (false, false) => "missed, and the tree is not slower",
    };
    (most, index / original, index / tree, verdict)
}

fn target_table(costs: &Costs) {
    println!("### Targets, at {}\n", name_of(TARGET_SET));
    println!("| operation | at most, of the original | index / original | index / tree | |");
    println!("|---|--:|--:|--:|---|");
    for (i, operation) in OPERATIONS.iter().enumerate() {
        let (most, original, tree, verdict) = verdict(costs, i);
        println!("| {operation} | {most} | {original:.2} | {tree:.2} | {verdict} |");
    }
    println!();
}

pub fn report() {
    println!("Measured on {}, {} ({}), {}.", told("date", &["-u", "+%Y-%m-%d"]), processor(), told("uname", &["-m"]), told("rustc", &["--version"]));
    if let Ok(how) = std::env::var("PONYBOLLARD_HOW") {
        println!("{how}");
    }
    println!("A store is made beforehand; `create` takes {:.1} ns for each record of 4,096, once.\n", creation(4096));
    let target_costs = nanoseconds(TARGET_SET);
    target_table(&target_costs);
    for set in SETS {
        println!("### {}\n", name_of(set));
        table(&if set == TARGET_SET { target_costs.clone() } else { nanoseconds(set) }, "ns");
        match instructions(set) {
            Some(costs) => table(&costs, "instructions"),
            None => println!("Instructions were not counted: there is no valgrind.\n"),
        }
    }
}

// Fails where an operation takes longer than its target allows, or not less time than the tree.
pub fn targets() {
    let costs = nanoseconds(TARGET_SET);
    let mut missed = 0;
    for (i, operation) in OPERATIONS.iter().enumerate() {
        let (most, original, tree, verdict) = verdict(&costs, i);
        missed += u32::from(verdict != "met");
        println!("bench: {operation}: {:.0} ns, {original:.2} of the original's (at most {most}), {tree:.2} of the tree's: {verdict}", costs["index"][i]);
    }
    if missed > 0 {
        std::process::exit(1);
    }
}
