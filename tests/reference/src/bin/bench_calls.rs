//! What the benchmark times. Reads an input in the walk program's format, with
//! a good opening and whole calls, and prints one checksum.
//!
//! - `bench_calls` makes the calls with `fast`; the checksum is of the replies
//!   and the peaks.
//! - `bench_calls floor` copies the bytes of 2F paths a call out of the tree
//!   and in again; the tape's first 2F numbers are their leaves.
//! - `bench_calls parse` only reads, which is to be subtracted.
//!
//! The last two join the kind, the value, the first 2F numbers of the tape and
//! a 0 to the checksum, as many numbers as a reply and its peak have.

use reference::checksum::Checksum;
use reference::fast;
use reference::paper::*;
use std::hint::black_box;
use std::io::{self, Read};

const BLOCK: usize = 65536;
const MOST_LEAVES: usize = 6 * GREATEST_HEIGHT[GREATEST_SIZE as usize - 1];
const LEVELS: usize = GREATEST_SIZE as usize + 1;

fn main() -> io::Result<()> {
    let mode = std::env::args().nth(1);
    let mut input = io::stdin().lock();
    let mut opening = [0; 2];
    input.read_exact(&mut opening)?;
    let [structure, size] = opening;
    let mut tree = vec![0; tree_bytes(size.clamp(1, GREATEST_SIZE))];
    let mut state = fast::open(structure, size, &mut tree);
    assert_eq!(state.mark, 0, "a good opening");
    let leaves = 2 * fetch_rounds(structure, size);
    let numbers = tape_length(structure, size);
    let mut trace = [0; MOST_LEAVES];
    let mut path = [0; LEVELS * BUCKET_BYTES];
    let mut sum = Checksum::START;
    match mode.as_deref() {
        None => each_call(input, numbers, |ticket, tape| {
            let outcome = fast::call(&mut state, &mut tree, ticket, tape, &mut trace);
            sum.join_call(outcome, &trace);
        })?,
        Some("floor") => each_call(input, numbers, |ticket, tape| {
            for &leaf in &tape[..leaves] {
                copy_path(&mut tree, &mut path, size, leaf);
            }
            join_read(&mut sum, ticket, &tape[..leaves]);
        })?,
        Some("parse") => each_call(input, numbers, |ticket, tape| {
            join_read(&mut sum, ticket, &tape[..leaves]);
        })?,
        Some(_) => panic!("floor, parse or nothing"),
    }
    println!("{}", sum.0);
    Ok(())
}

/// Hands each call's ticket and tape on; the input is read in blocks.
fn each_call(
    mut input: impl Read,
    numbers: usize,
    mut make: impl FnMut(&[u8], &[u16]),
) -> io::Result<()> {
    let length = TICKET_BYTES + 2 * numbers;
    let mut tape = [0; MOST_LEAVES + 1];
    let mut block = vec![0; BLOCK];
    let mut held = 0;
    loop {
        let got = input.read(&mut block[held..])?;
        if got == 0 {
            assert_eq!(held, 0, "whole calls");
            return Ok(());
        }
        held += got;
        let whole = held - held % length;
        for call in block[..whole].chunks_exact(length) {
            let (ticket, rest) = call.split_at(TICKET_BYTES);
            for (number, bytes) in tape.iter_mut().zip(rest.chunks_exact(2)) {
                *number = u16::from_le_bytes([bytes[0], bytes[1]]);
            }
            make(ticket, &tape[..numbers]);
        }
        block.copy_within(whole..held, 0);
        held -= whole;
    }
}

fn join_read(sum: &mut Checksum, ticket: &[u8], leaves: &[u16]) {
    let ticket = Ticket::read(ticket);
    sum.join(u64::from(ticket.kind));
    sum.join(ticket.value);
    for &leaf in leaves {
        sum.join(u64::from(leaf));
    }
    sum.join(0);
}

/// Copies a path's buckets out of the tree, and in again.
fn copy_path(tree: &mut [u8], path: &mut [u8], size: u8, leaf: u16) {
    let path = &mut path[..BUCKET_BYTES * (usize::from(size) + 1)];
    let start = |level: usize| BUCKET_BYTES * (fast::path_bucket(leaf, size, level as u8) - 1);
    for (level, bucket) in path.chunks_exact_mut(BUCKET_BYTES).enumerate() {
        bucket.copy_from_slice(&tree[start(level)..][..BUCKET_BYTES]);
    }
    black_box(&mut *path);
    for (level, bucket) in path.chunks_exact(BUCKET_BYTES).enumerate() {
        tree[start(level)..][..BUCKET_BYTES].copy_from_slice(bucket);
    }
    black_box(&mut *tree);
}
