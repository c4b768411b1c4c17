//! The copying of tickets by hand, and random files of tickets.

mod common;

use common::*;
use reference::copies::{all_branches, both_rules, branches, file};
use reference::copy::{copied, copy_file, Copied};
use reference::paper::*;
use std::collections::HashMap;
use std::fs;

/// Nine tickets with key 1 and value 2, one after the other, and their copies.
#[test]
fn each_kind() {
    let old = [
        [1, 1, 0, 0, 0, 2, 0, 0, 0, 0, 0, 0, 0],
        [2, 1, 0, 0, 0, 2, 0, 0, 0, 0, 0, 0, 0],
        [3, 1, 0, 0, 0, 2, 0, 0, 0, 0, 0, 0, 0],
        [4, 1, 0, 0, 0, 2, 0, 0, 0, 0, 0, 0, 0],
        [5, 1, 0, 0, 0, 2, 0, 0, 0, 0, 0, 0, 0],
        [6, 1, 0, 0, 0, 2, 0, 0, 0, 0, 0, 0, 0],
        [7, 1, 0, 0, 0, 2, 0, 0, 0, 0, 0, 0, 0],
        [8, 1, 0, 0, 0, 2, 0, 0, 0, 0, 0, 0, 0],
        [9, 1, 0, 0, 0, 2, 0, 0, 0, 0, 0, 0, 0],
    ];
    let new = [
        [1, 1, 0, 0, 0, 0, 0, 0, 0, 0, 0, 0, 0],
        [2, 1, 0, 0, 0, 2, 0, 0, 0, 0, 0, 0, 0],
        [3, 1, 0, 0, 0, 0, 0, 0, 0, 0, 0, 0, 0],
        [4, 0, 0, 0, 0, 2, 0, 0, 0, 0, 0, 0, 0],
        [5, 0, 0, 0, 0, 0, 0, 0, 0, 0, 0, 0, 0],
        [6, 0, 0, 0, 0, 2, 0, 0, 0, 0, 0, 0, 0],
        [7, 0, 0, 0, 0, 0, 0, 0, 0, 0, 0, 0, 0],
        [8, 0, 0, 0, 0, 2, 0, 0, 0, 0, 0, 0, 0],
        [9, 0, 0, 0, 0, 0, 0, 0, 0, 0, 0, 0, 0],
    ];
    let Copied { bytes, changed } = copied(&old.concat());
    assert_eq!((bytes, changed), (new.concat(), 8));
    assert_eq!(copied(&new.concat()).changed, 0);
}

/// All 12 bytes are the fields': none but the unused ones go.
#[test]
fn all_bytes() {
    let full = |kind: u8| [[kind].as_slice(), &[255; 12]].concat();
    assert_eq!(
        copied(&full(1)).bytes,
        [1, 255, 255, 255, 255, 0, 0, 0, 0, 0, 0, 0, 0]
    );
    assert_eq!(copied(&full(2)).bytes, full(2));
    assert_eq!(copied(&full(4)).bytes[..6], [4, 0, 0, 0, 0, 255]);
    assert_eq!(copied(&full(4)).bytes[6..], [255; 7]);
    assert_eq!(
        copied(&full(5)).bytes,
        [5, 0, 0, 0, 0, 0, 0, 0, 0, 0, 0, 0, 0]
    );
}

/// Unknown kinds and a short end stay, whatever their figures.
#[test]
fn what_stays() {
    for kind in (0..=255).filter(|kind| !(1..=9).contains(kind)) {
        let ticket = Ticket::new(kind, u32::MAX, u64::MAX).bytes();
        let Copied { bytes, changed } = copied(&ticket);
        assert_eq!((bytes, changed), (ticket.to_vec(), 0));
    }
    let pops = [5; 26];
    for length in 0..=26 {
        let Copied { bytes, changed } = copied(&pops[..length]);
        let whole = length / 13;
        let mut expected = [[5].as_slice(), &[0; 12]].concat().repeat(whole);
        expected.extend(vec![5; length % 13]);
        assert_eq!((bytes, changed), (expected, whole as u64));
    }
}

/// A ticket counts once, however many of its bytes change, and only if one does.
#[test]
fn what_counts() {
    let count = |tickets: &[Ticket]| {
        let bytes: Vec<u8> = tickets.iter().flat_map(|ticket| ticket.bytes()).collect();
        copied(&bytes).changed
    };
    assert_eq!(count(&[pop(), push(7), put(1, 2), get(3)]), 0);
    assert_eq!(count(&[Ticket::new(POP, u32::MAX, u64::MAX), pop()]), 1);
    assert_eq!(count(&[Ticket::new(GET, 0, 1), Ticket::new(OUT, 1, 0)]), 2);
}

/// The program replaces NEW, and does not take OLD for it.
#[test]
fn copied_files() {
    let directory = std::env::temp_dir().join(format!("copied-files-{}", std::process::id()));
    fs::create_dir(&directory).unwrap();
    let (old, new) = (directory.join("OLD"), directory.join("NEW"));
    fs::write(&old, [[5; 13], [4; 13]].concat()).unwrap();
    assert_eq!(copy_file(&old, &new), Ok(2));
    assert_eq!(copy_file(&new, &directory.join("AGAIN")), Ok(0));
    assert_eq!(fs::read(&new).unwrap()[..13], pop().bytes());
    assert!(copy_file(&old, &old).unwrap_err().contains("the same file"));
    let missing = copy_file(&directory.join("MISSING"), &new).unwrap_err();
    assert!(missing.contains("No such file or directory"));
    assert!(copy_file(&old, &directory).is_err());
    assert!(copy_file(&directory, &new).is_err());
    assert_eq!(fs::read_dir(&directory).unwrap().count(), 3);
    fs::remove_dir_all(directory).unwrap();
}

/// As many files as tests/compare has: each branch is met, and a copy's copy is
/// the same.
#[test]
fn every_branch_is_met() {
    let mut met = HashMap::new();
    for seed in 0..600 {
        let old = file(seed);
        let copy = copied(&old);
        let again = copied(&copy.bytes);
        assert!(again.bytes == copy.bytes && again.changed == 0);
        let rules = both_rules(&mut Random::new(!seed), &old, &copy.bytes);
        for branch in branches(&old, &copy).into_iter().chain(rules) {
            *met.entry(branch).or_insert(0) += 1;
        }
    }
    for (group, names) in all_branches() {
        for name in names {
            let count = met.get(&(group, name.clone())).copied().unwrap_or(0);
            assert!(count > 0, "{group}: {name}");
        }
    }
}
