//! Random closed stores for the read-out: `stores DIRECTORY SEED COUNT` writes
//! those of COUNT seeds from SEED on, one after the other, to
//! DIRECTORY/SEED.stores, and what their read-outs are to give to
//! DIRECTORY/SEED.expected; `plain` makes it, and `fast` must say the same. Then
//! it prints how often each branch was met, a line a branch: the count, the
//! group, a colon and the name.

use reference::record::{result_bytes, Record};
use reference::stores::{branches, trial, BRANCHES};
use reference::{fast, plain, Store};
use std::collections::HashMap;
use std::{env, fs, io};

/// What the output buffers hold before.
const FILLED: u8 = 165;

fn main() -> io::Result<()> {
    let words: Vec<String> = env::args().skip(1).collect();
    let [directory, seed, count] = words.as_slice() else {
        eprintln!("usage: stores DIRECTORY SEED COUNT");
        std::process::exit(2);
    };
    let seed: u64 = seed.parse().expect("a seed");
    let count: u64 = count.parse().expect("a count");
    let (mut stores, mut expected) = (vec![], vec![]);
    let mut met: HashMap<(&str, String), usize> = HashMap::new();
    for seed in (0..count).map(|at| seed.wrapping_add(at)) {
        let trial = trial(seed);
        let (result, output) = read_out::<plain::State>(&trial.record);
        let again = read_out::<fast::State>(&trial.record);
        assert!(
            again == (result, output.clone()),
            "the builds differ: seed {seed}"
        );
        for branch in branches(&trial, result) {
            *met.entry(branch).or_default() += 1;
        }
        stores.extend(trial.record.bytes());
        expected.extend(result_bytes(result, &output));
    }
    fs::write(format!("{directory}/{seed}.stores"), stores)?;
    fs::write(format!("{directory}/{seed}.expected"), expected)?;
    for (group, names) in BRANCHES {
        for name in names {
            let count = met.get(&(group, name.to_string())).unwrap_or(&0);
            println!("{count} {group}: {name}");
        }
    }
    Ok(())
}

fn read_out<S: Store>(record: &Record) -> (Result<usize, u8>, Vec<u8>) {
    let mut output = vec![FILLED; record.room];
    let result = S::from_plain(&record.state).read_out(&record.tree, &mut output);
    (result, output)
}
