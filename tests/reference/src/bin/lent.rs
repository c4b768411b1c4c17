//! Random calls of a C host: `lent DIRECTORY SEED COUNT` writes those of COUNT
//! seeds from SEED on, one after the other, to DIRECTORY/SEED.lent, and what
//! the driver is to print of them to DIRECTORY/SEED.expected; `plain` makes it,
//! and `fast` must say the same. Then it prints how often each branch was met, a
//! line a branch: the count, the group, a colon and the name.

use reference::lent::{all_branches, branches, records, Name};
use reference::{fast, plain};
use std::collections::HashMap;
use std::{env, fs, io};

fn main() -> io::Result<()> {
    let words: Vec<String> = env::args().skip(1).collect();
    let [directory, seed, count] = words.as_slice() else {
        eprintln!("usage: lent DIRECTORY SEED COUNT");
        std::process::exit(2);
    };
    let seed: u64 = seed.parse().expect("a seed");
    let count: u64 = count.parse().expect("a count");
    let (mut calls, mut expected) = (vec![], vec![]);
    let mut met: HashMap<Name, usize> = HashMap::new();
    for seed in (0..count).map(|at| seed.wrapping_add(at)) {
        for record in records(seed) {
            let (mut left, mut again) = (record.clone(), record.clone());
            let told = left.make::<plain::State>();
            assert!(
                again.make::<fast::State>() == told && again == left,
                "the builds differ: seed {seed}"
            );
            for branch in branches(&record, told, &left) {
                *met.entry(branch).or_default() += 1;
            }
            calls.extend(record.bytes());
            expected.extend(left.told_bytes(told));
        }
    }
    fs::write(format!("{directory}/{seed}.lent"), calls)?;
    fs::write(format!("{directory}/{seed}.expected"), expected)?;
    for (group, names) in all_branches() {
        for name in names {
            let count = met.get(&(group, name.clone())).unwrap_or(&0);
            println!("{count} {group}: {name}");
        }
    }
    Ok(())
}
