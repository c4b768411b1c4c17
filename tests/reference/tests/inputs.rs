//! The random inputs reach what the walk program and `damaged_calls` can meet,
//! and the checksum is the one that is written down.

mod common;

use common::output;
use reference::checksum::Checksum;
use reference::counts::Counts;
use reference::damaged;
use reference::inputs::{input, plan, Plan, PLANS};
use reference::paper::*;
use reference::walk::Program;
use std::collections::{BTreeMap, BTreeSet};

/// Each structure, size and plan twice.
const SEEDS: std::ops::Range<u64> = 0..576;

/// How many lines start with each word, or with "refused" and its cause.
fn tally(seeds: impl Iterator<Item = u64>) -> BTreeMap<String, usize> {
    let mut tally = BTreeMap::new();
    for seed in seeds {
        let input = input(seed);
        let output = output(Program::Walk, &input);
        for line in output.lines() {
            let words: Vec<&str> = line.split(' ').collect();
            let head = match words[0] {
                "refused" => words[..2].join(" "),
                word => word.to_string(),
            };
            *tally.entry(head).or_default() += 1;
        }
    }
    tally
}

#[test]
fn every_line_is_reached() {
    let tally = tally(SEEDS);
    let expected = [
        "absent",
        "added",
        "dequeued",
        "empty",
        "found",
        "new",
        "popped",
        "pushed",
        "queued",
        "refused 1",
        "refused 10",
        "refused 11",
        "refused 12",
        "refused 19",
        "refused 5",
        "refused 9",
        "removed",
        "replaced",
        "short",
        "taken",
    ];
    assert_eq!(tally.keys().collect::<Vec<_>>(), expected, "{tally:?}");
    assert!(tally.values().all(|&count| count >= 10), "{tally:?}");
}

#[test]
fn every_structure_size_and_plan_is_reached() {
    let mut reached = BTreeSet::new();
    for seed in (0..2048).filter(|&seed| plan(seed) != Plan::RefusedOpening) {
        if let [structure, size, ..] = input(seed)[..] {
            reached.insert((structure, size, plan(seed) as u8));
        }
    }
    assert_eq!(reached.len(), 4 * 8 * (PLANS.len() - 1));
}

#[test]
fn every_structure_overflows() {
    for structure in [MAP, STACK, HEAP, QUEUE] {
        let seeds = SEEDS.filter(|&seed| input(seed).first() == Some(&structure));
        assert!(tally(seeds)["refused 9"] > 0);
    }
}

/// More seeds of the stores that overflow in fetch rounds too, which is rare.
fn crowded_stores() -> impl Iterator<Item = u64> {
    let skewed = (SEEDS.end..9216).filter(|&seed| plan(seed) == Plan::SkewedLeaves);
    skewed.filter(|&seed| matches!(input(seed)[..], [_, 7 | 8, ..]))
}

fn assert_met(counts: Counts) {
    for ((group, name), count) in counts.all() {
        assert!(count >= 5, "{group}: {name}: {count}");
    }
}

#[test]
fn every_branch_is_met() {
    let mut counts = Counts::new(false);
    for seed in SEEDS.chain(crowded_stores()) {
        counts.run(&input(seed), |_| Ok(())).unwrap();
    }
    assert_met(counts);
}

/// As many inputs as tests/compare runs.
#[test]
fn every_branch_of_damaged_calls_is_met() {
    let mut counts = Counts::new(true);
    for seed in 0..4608 {
        counts.run(&damaged::input(seed), |_| Ok(())).unwrap();
    }
    assert_met(counts);
}

/// Each of their calls has a peak's line below its own; one that has none ends
/// the input.
#[test]
fn damaged_inputs() {
    let mut short = 0;
    for seed in SEEDS {
        let output = output(Program::DamagedCalls, &damaged::input(seed));
        let lines: Vec<&str> = output.lines().collect();
        let (pairs, rest) = lines.split_at(lines.len() & !1);
        for pair in pairs.chunks(2) {
            assert!(!pair[0].starts_with("last ") && pair[1].starts_with("last "));
        }
        assert!(matches!(rest, [] | ["short" | "refused 11" | "refused 12"]));
        short += usize::from(rest == ["short"]);
    }
    assert!(short >= 10, "{short}");
}

/// The worked example: pushed 0 1 3 with peak 0, popped 50 2 1 with peak 1.
#[test]
fn checksum_of_the_worked_calls() {
    let mut sum = Checksum::START;
    for (answer, trace, peak) in [(Answer::Pushed, [1, 3], 0), (Answer::Popped(50), [2, 1], 1)] {
        let leaves = trace.len();
        sum.join_call(
            Outcome {
                answer,
                leaves,
                peak,
            },
            &trace,
        );
    }
    assert_eq!(sum.0, 14534165301980494207);
}
