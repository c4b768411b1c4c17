//! Every path of the sizes 1 to 15: a line a size, `size K numbers A tests B`,
//! where A and B are checksums. For each leaf from 0 on and each level of its
//! path from the leaf's bucket up, A joins the number b of the bucket there.
//! For each c of b, b xor 1, 2b and 2b + 1, in this order, B joins 2c, plus 1 if
//! the path passes bucket c.
//!
//! Both are of the path that `plain` lists, halving by halving. Where a shift of
//! `fast` gives another number, or another test another answer, a message and
//! status 1 end the program. At its end it writes how often the tests met each
//! branch to the standard error, a line a branch: the count, the group, a colon
//! and the name.

use reference::checksum::Checksum;
use reference::paper::leaf_count;
use reference::{fast, plain};
use std::process::ExitCode;

/// Beyond a store's, as far as a leaf's bucket has 16 bits.
const GREATEST_SIZE: u8 = 15;

/// What the test of a bucket meets.
const BRANCHES: [&str; 4] = [
    "on the path",
    "another bucket of its level",
    "beyond the leaves",
    "bucket 0",
];

struct Sums {
    numbers: Checksum,
    tests: Checksum,
}

fn main() -> ExitCode {
    let mut met = [0; BRANCHES.len()];
    for size in 1..=GREATEST_SIZE {
        match sums(size, &mut met) {
            Ok(Sums { numbers, tests }) => {
                println!("size {size} numbers {} tests {}", numbers.0, tests.0)
            }
            Err(message) => {
                eprintln!("size {size}, {message}");
                return ExitCode::FAILURE;
            }
        }
    }
    for (count, name) in met.iter().zip(BRANCHES) {
        eprintln!("{count} path tests: {name}");
    }
    ExitCode::SUCCESS
}

fn sums(size: u8, met: &mut [u64; BRANCHES.len()]) -> Result<Sums, String> {
    let mut sums = Sums {
        numbers: Checksum::START,
        tests: Checksum::START,
    };
    for leaf in 0..1 << size {
        let path = plain::path(leaf, size);
        for level in 0..=size {
            let bucket = path[usize::from(level)];
            let shifted = fast::path_bucket(leaf, size, level);
            if shifted != bucket {
                return Err(format!(
                    "leaf {leaf}, level {level}: bucket {bucket}, by a shift {shifted}"
                ));
            }
            sums.numbers.join(bucket as u64);
            for tried in [bucket, bucket ^ 1, 2 * bucket, 2 * bucket + 1] {
                let passed = test(&path, leaf, size, tried)?;
                sums.tests.join(2 * tried as u64 + u64::from(passed));
                met[branch(size, tried, passed)] += 1;
            }
        }
    }
    Ok(sums)
}

/// Whether the path of the leaf passes a bucket, as all that test it say.
fn test(path: &[usize], leaf: u16, size: u8, bucket: usize) -> Result<bool, String> {
    let passed = path.contains(&bucket);
    let by_halving = plain::passes(leaf, size, bucket);
    let by_shift = fast::passes(leaf, size, bucket);
    if (by_halving, by_shift) == (passed, passed) {
        return Ok(passed);
    }
    Err(format!(
        "leaf {leaf}, bucket {bucket}: listed {passed}, by halving {by_halving}, by a shift {by_shift}"
    ))
}

/// The place of the branch among all.
fn branch(size: u8, bucket: usize, passed: bool) -> usize {
    match bucket {
        _ if passed => 0,
        0 => 3,
        _ if bucket >= 2 * leaf_count(size) => 2,
        _ => 1,
    }
}
