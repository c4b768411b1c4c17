//! Reading out a closed store: one pass over the places, one sort of keys.

use super::node::Node;
use super::path::passes;
use super::state::State;
use crate::paper::*;

const MOST_SLOTS: usize = BUCKET_SLOTS * ((2 << GREATEST_SIZE) - 1);
const MOST_NODES: usize = MOST_SLOTS + PLACES;

/// Writes the file to the output's start. Returns its length, or the number of
/// a refusal, which writes nothing.
pub fn read_out(state: &State, tree: &[u8], output: &mut [u8]) -> Result<usize, u8> {
    check(state, tree.len())?;
    let mut found = Found::new(state, tree);
    found.gather();
    found.drop_repeated();
    let length = found.file_length();
    let file = output.get_mut(..length).ok_or(OUTPUT_SHORT)?;
    found.write(file);
    Ok(length)
}

/// The causes 14, 2 and 3, in order.
fn check(state: &State, tree: usize) -> Result<(), u8> {
    let unless = |holds: bool, cause: u8| if holds { Ok(()) } else { Err(cause) };
    unless(matches!(state.mark, DAMAGE | OVERFLOW), NOT_CLOSED)?;
    let known = matches!(state.structure, MAP..=QUEUE) && matches!(state.size, 1..=GREATEST_SIZE);
    unless(known && state.count <= PLACES, STATE_UNFIT)?;
    unless(tree == tree_bytes(state.size), TREE_LENGTH)
}

struct Found<'a> {
    state: &'a State,
    tree: &'a [u8],
    /// A good node's key over its rank: waiting ones first, then the slots. So
    /// the first of a key, once sorted, is the one that is taken.
    order: [u64; MOST_NODES],
    taken: usize,
    /// A reason, or 0, for each 32 bytes of the places.
    reasons: [u8; MOST_NODES],
    left_out: usize,
}

impl<'a> Found<'a> {
    fn new(state: &'a State, tree: &'a [u8]) -> Found<'a> {
        Found {
            state,
            tree,
            order: [0; MOST_NODES],
            taken: 0,
            reasons: [0; MOST_NODES],
            left_out: 0,
        }
    }

    fn slots(&self) -> usize {
        self.tree.len() / SLOT_BYTES
    }

    fn gather(&mut self) {
        let state = self.state;
        for (number, node) in state.places[..state.count].iter().enumerate() {
            self.join(node, number, node.is_good(state.size));
        }
        for bucket in 1..2 << state.size {
            self.gather_bucket(bucket);
        }
    }

    fn gather_bucket(&mut self, bucket: usize) {
        let size = self.state.size;
        let tree = self.tree;
        let start = BUCKET_BYTES * (bucket - 1);
        let slots = tree[start..start + BUCKET_BYTES].chunks_exact(SLOT_BYTES);
        for (at, node) in slots.map(Node::read).enumerate() {
            if node.is_zero() {
                continue;
            }
            let rank = PLACES + BUCKET_SLOTS * (bucket - 1) + at;
            let is_good = passes(node.tag(), size, bucket) && node.is_good(size);
            self.join(&node, rank, is_good);
        }
    }

    fn join(&mut self, node: &Node, rank: usize, is_good: bool) {
        if is_good {
            self.order[self.taken] = u64::from(node.key()) << 32 | rank as u64;
            self.taken += 1;
        } else {
            self.leave_out(rank, BAD);
        }
    }

    fn leave_out(&mut self, rank: usize, reason: u8) {
        let place = match rank < PLACES {
            true => self.slots() + rank,
            false => rank - PLACES,
        };
        self.reasons[place] = reason;
        self.left_out += 1;
    }

    /// Sorts, and keeps the first of each key.
    fn drop_repeated(&mut self) {
        self.order[..self.taken].sort_unstable();
        let all = self.taken;
        self.taken = 0;
        for at in 0..all {
            let entry = self.order[at];
            if self.taken > 0 && self.order[self.taken - 1] >> 32 == entry >> 32 {
                self.leave_out(entry as u32 as usize, REPEATED);
            } else {
                self.order[self.taken] = entry;
                self.taken += 1;
            }
        }
    }

    fn file_length(&self) -> usize {
        2 + 16 * self.taken + 5 * self.left_out
    }

    fn write(&self, file: &mut [u8]) {
        let (count, file) = file.split_at_mut(2);
        let (heads, file) = file.split_at_mut(8 * self.taken);
        let (values, report) = file.split_at_mut(8 * self.taken);
        count.copy_from_slice(&(self.taken as u16).to_le_bytes());
        let mut offset = 2 + 8 * self.taken as u64;
        let bytes = heads.chunks_exact_mut(8).zip(values.chunks_exact_mut(8));
        for (entry, (head, value)) in self.order[..self.taken].iter().zip(bytes) {
            head.copy_from_slice(&(entry >> 32 | offset << 32).to_le_bytes());
            value.copy_from_slice(&self.value(*entry as u32 as usize).to_le_bytes());
            offset += 8;
        }
        self.write_report(report);
    }

    fn value(&self, rank: usize) -> u64 {
        match rank.checked_sub(PLACES) {
            None => self.state.places[rank].value(),
            Some(slot) => {
                let end = SLOT_BYTES * (slot + 1);
                u64::from_le_bytes(self.tree[end - 8..end].try_into().unwrap())
            }
        }
    }

    fn write_report(&self, report: &mut [u8]) {
        if self.left_out == 0 {
            return;
        }
        let places = self.reasons[..self.slots() + self.state.count].iter();
        let left_out = places.enumerate().filter(|(_, &reason)| reason != 0);
        for ((at, &reason), line) in left_out.zip(report.chunks_exact_mut(5)) {
            line[..4].copy_from_slice(&((SLOT_BYTES * at) as u32).to_le_bytes());
            line[4] = reason;
        }
    }
}
