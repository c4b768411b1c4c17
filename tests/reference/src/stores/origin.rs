//! Where closed stores come from: calls that overflow, calls on a damaged tree,
//! and nodes put together by hand.

use super::{edit, Closed};
use crate::fast;
use crate::fields;
use crate::paper::*;
use crate::plain::{self, write_slot, Node, State};
use crate::random::Random;
use crate::Store;

/// An open store under calls of its structure.
struct Calls<'a> {
    random: &'a mut Random,
    state: fast::State,
    tree: Vec<u8>,
    /// Those that most of a tape's numbers are picked from; any, if there are none.
    leaves: Vec<u16>,
    /// Whether a new node's own tag may be any leaf.
    any_own_tag: bool,
    /// How many of ten calls add an entry.
    growth: u64,
}

impl Calls<'_> {
    fn open(random: &mut Random, structure: u8, size: u8, leaves: u64) -> Calls<'_> {
        let mut tree = vec![0; tree_bytes(size)];
        Calls {
            state: fast::open(structure, size, &mut tree),
            tree,
            leaves: (0..leaves).map(|_| random.next() as u16).collect(),
            any_own_tag: random.one_in(2),
            growth: 7 + random.below(4),
            random,
        }
    }

    fn call(&mut self) {
        let fast::State {
            structure, size, ..
        } = self.state;
        let rounds = fetch_rounds(structure, size);
        let spare = rounds..first_put_draw(structure, size);
        let adds = self.random.below(10) < self.growth;
        let kind = fields::kind_of(&mut self.random, structure, adds, &[GET, REMOVE]);
        let key = self.random.below(u64::from(capacity(size)) * 3 / 2 + 2) as u32;
        let value = self.random.next() >> self.random.below(64);
        let ticket = fields::clean(kind, key, value);
        let tape: Vec<u16> = (0..tape_length(structure, size))
            .map(|at| self.number(spare.contains(&at)))
            .collect();
        let mut trace = vec![0; 2 * rounds];
        fast::call(
            &mut self.state,
            &mut self.tree,
            &ticket.bytes(),
            &tape,
            &mut trace,
        );
    }

    fn number(&mut self, own_tag: bool) -> u16 {
        if self.leaves.is_empty() || own_tag && self.any_own_tag {
            return self.random.next() as u16;
        }
        self.random.pick(&self.leaves)
    }

    fn is_closed(&self) -> bool {
        self.state.mark != 0
    }

    fn closed(self) -> Closed {
        Closed {
            state: self.state.to_plain(),
            tree: self.tree,
        }
    }
}

/// A fresh store that its own calls closed with 9; the size is 7 or 8.
pub fn overflowed(random: &mut Random, structure: u8, size: u8) -> Closed {
    // More paths than these have room for a full store of size 7.
    let mut leaves = 1 + random.below(if size == 7 { 2 } else { 4 });
    loop {
        let mut calls = Calls::open(random, structure, size, leaves);
        for _ in 0..2 * leaf_count(size) {
            calls.call();
            if calls.is_closed() {
                return calls.closed();
            }
        }
        leaves = 1;
    }
}

/// A store whose tree was damaged, and a call that met 8, or 9 before.
pub fn damaged(random: &mut Random, structure: u8, size: u8) -> Closed {
    let leaves = random.pick(&[0, 0, 2, 4]);
    let mut calls = Calls::open(random, structure, size, leaves);
    for _ in 0..calls.random.index(3 * leaf_count(size).min(60)) {
        calls.call();
        if calls.is_closed() {
            return calls.closed();
        }
    }
    for _ in 0..=calls.random.below(3) {
        edit::tree(calls.random, size, &mut calls.tree);
    }
    for _ in 0..20 {
        calls.call();
    }
    if !calls.is_closed() {
        // A slot that every path passes.
        let slot = calls.random.index(BUCKET_SLOTS);
        calls.tree[SLOT_BYTES * slot] = 2;
        calls.call();
    }
    calls.closed()
}

/// A store put together by hand, with as many nodes as a share of its places.
pub fn forged(random: &mut Random, structure: u8, size: u8) -> Closed {
    let mut tree = vec![0; tree_bytes(size)];
    let mut state = State {
        mark: random.pick(&[DAMAGE, OVERFLOW]),
        ..plain::open(structure, size, &mut tree)
    };
    let keys = random.pick(&[4, 40, 4000, 1 << 32]);
    let share = random.pick(&[0, 1, 4, 8, 8]);
    for (at, slot) in tree.chunks_mut(SLOT_BYTES).enumerate() {
        if random.below(8) < share {
            let key = random.below(keys) as u32;
            let node = edit::node(random, size, 1 + at / BUCKET_SLOTS, key);
            slot.copy_from_slice(&write_slot(&node));
        }
    }
    let waiting = random.pick(&[0, 0, 1, 5, 64, 65, 100, PLACES]);
    let nodes: Vec<Node> = (0..waiting)
        .map(|_| {
            let key = random.below(keys) as u32;
            edit::node(random, size, 1, key)
        })
        .collect();
    state.set_waiting(&nodes);
    Closed { state, tree }
}
