//! Random files of tickets: `copies DIRECTORY SEED COUNT` writes, for each of
//! COUNT seeds from SEED on, the file to DIRECTORY/SEED.old, its copy to
//! DIRECTORY/SEED.copy and what the copying program prints to
//! DIRECTORY/SEED.printed. A store by the rule before 19 must answer the tickets
//! as one by the rule of now answers their copies. Then it prints how often each
//! branch was met, a line a branch: the count, the group, a colon and the name.

use reference::copies::{all_branches, both_rules, branches, file, Name};
use reference::copy::{copied, Copied};
use reference::random::Random;
use std::collections::HashMap;
use std::{env, fs, io};

fn main() -> io::Result<()> {
    let words: Vec<String> = env::args().skip(1).collect();
    let [directory, seed, count] = words.as_slice() else {
        eprintln!("usage: copies DIRECTORY SEED COUNT");
        std::process::exit(2);
    };
    let seed: u64 = seed.parse().expect("a seed");
    let count: u64 = count.parse().expect("a count");
    let mut met: HashMap<Name, usize> = HashMap::new();
    for seed in (0..count).map(|at| seed.wrapping_add(at)) {
        let old = file(seed);
        let copy = copied(&old);
        let by_rules = both_rules(&mut Random::new(!seed), &old, &copy.bytes);
        for branch in branches(&old, &copy).into_iter().chain(by_rules) {
            *met.entry(branch).or_default() += 1;
        }
        let Copied { bytes, changed } = copy;
        fs::write(format!("{directory}/{seed}.old"), old)?;
        fs::write(format!("{directory}/{seed}.copy"), bytes)?;
        fs::write(
            format!("{directory}/{seed}.printed"),
            format!("{changed}\n"),
        )?;
    }
    for (group, names) in all_branches() {
        for name in names {
            let count = met.get(&(group, name.clone())).unwrap_or(&0);
            println!("{count} {group}: {name}");
        }
    }
    Ok(())
}
