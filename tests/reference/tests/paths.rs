//! Paths by halving and by shift, and what the `paths` program prints of them.

use reference::checksum::Checksum;
use reference::{fast, plain};
use std::process::Command;

#[test]
fn halving_and_shift_give_the_same_path() {
    for size in 1..=15 {
        for leaf in 0..1 << size {
            let path = plain::path(leaf, size);
            assert_eq!(path.len(), usize::from(size) + 1);
            assert_eq!(path.last(), Some(&1));
            let shifted: Vec<usize> = (0..=size)
                .map(|level| fast::path_bucket(leaf, size, level))
                .collect();
            assert_eq!(path, shifted);
        }
    }
}

/// Of every bucket, with 0 and a level beyond the leaves.
#[test]
fn a_path_passes_the_buckets_of_its_list() {
    for size in 1..=8 {
        for leaf in 0..1 << size {
            let path = plain::path(leaf, size);
            for bucket in 0..4 << size {
                let passed = path.contains(&bucket);
                assert_eq!(plain::passes(leaf, size, bucket), passed);
                assert_eq!(fast::passes(leaf, size, bucket), passed);
            }
        }
    }
}

/// Size 1 by hand: leaf 0 has the buckets 2 and 1, leaf 1 has 3 and 1.
#[test]
fn first_line_and_counts_of_the_program() {
    let numbers = sum(&[2, 1, 3, 1]);
    let tests = sum(&[5, 6, 8, 10, 3, 0, 5, 6, 7, 4, 12, 14, 3, 0, 4, 7]);
    let done = Command::new(env!("CARGO_BIN_EXE_paths")).output().unwrap();
    assert!(done.status.success());
    let output = String::from_utf8(done.stdout).unwrap();
    let lines: Vec<&str> = output.lines().collect();
    assert_eq!(lines[0], format!("size 1 numbers {numbers} tests {tests}"));
    assert_eq!(lines.len(), 15);
    let leaves: u64 = (1..=15).map(|size| 1 << size).sum();
    let buckets: u64 = (1..=15).map(|size| (size + 1) << size).sum();
    let counts = format!(
        "{} path tests: on the path\n{} path tests: another bucket of its level\n\
         {} path tests: beyond the leaves\n{leaves} path tests: bucket 0\n",
        2 * buckets - leaves,
        2 * (buckets - leaves),
        2 * leaves,
    );
    assert_eq!(String::from_utf8(done.stderr).unwrap(), counts);
}

fn sum(numbers: &[u64]) -> u64 {
    let mut sum = Checksum::START;
    numbers.iter().for_each(|&number| sum.join(number));
    sum.0
}
