//! Random calls of a C host with all that it lends to them, from seeds. Seeds in
//! a row go through every structure, size and plan.

mod branch;
mod cause;
mod chain;
mod damage;
mod faults;
mod names;
mod record;
mod unfit;

pub use branch::{branches, Name};
pub use names::all_branches;
pub use record::{Buffers, Opening, ReadOut, Record, Told};

use crate::fast;
use crate::host::{state_bytes, STATE_BYTES};
use crate::paper::*;
use crate::random::Random;
use crate::stores;
use chain::Chain;

/// How many records a seed has: fewer where the trees are large.
const RECORDS: [usize; 8] = [24, 24, 24, 24, 24, 24, 8, 8];
/// The longest file of a store.
const MOST_FILE: usize = 2 + 16 * (4 * 511 + PLACES);

/// Where the fields of a state start.
mod at {
    pub const MARK: usize = 0;
    pub const STRUCTURE: usize = 1;
    pub const SIZE: usize = 2;
    pub const ROOT_HEIGHT: usize = 3;
    pub const ENTRIES: usize = 4;
    pub const WAITING: usize = 6;
    pub const ROOT_KEY: usize = 8;
    pub const ROOT_TAG: usize = 12;
    pub const TAG_AHEAD: usize = 14;
    pub const PLACES: usize = 16;
}

/// The number in some bytes.
fn get(bytes: &[u8], at: usize, length: usize) -> u64 {
    let bytes = bytes[at..at + length].iter().rev();
    bytes.fold(0, |number, &byte| number << 8 | u64::from(byte))
}

/// Writes as much of a number as there is room for.
fn set(bytes: &mut [u8], at: usize, length: usize, number: u64) {
    bytes[at..at + length].copy_from_slice(&number.to_le_bytes()[..length]);
}

fn garbage(random: &mut Random, length: usize) -> Vec<u8> {
    let mut bytes = Vec::with_capacity(length + 8);
    while bytes.len() < length {
        bytes.extend(random.next().to_le_bytes());
    }
    bytes.truncate(length);
    bytes
}

type Plan = fn(&mut Chain);

const PLANS: [Plan; 15] = [
    grown, full, last_keys, crowded, crowded, damaged, damaged, unfit, unfit, faulty, faulty,
    closed, openings, openings, anything,
];

/// The records of a seed.
pub fn records(seed: u64) -> Vec<Record> {
    let structure = [MAP, STACK, HEAP, QUEUE][(seed % 4) as usize];
    let size = 1 + (seed / 4 % 8) as u8;
    let mut chain = Chain::new(Random::new(seed), structure, size);
    PLANS[(seed / 32) as usize % PLANS.len()](&mut chain);
    chain.records.truncate(RECORDS[usize::from(size) - 1]);
    chain.records
}

impl Chain {
    fn is_done(&self) -> bool {
        self.records.len() >= RECORDS[usize::from(self.size) - 1]
    }

    fn call_until_done(&mut self) {
        while !self.is_done() {
            self.calls(1);
        }
    }

    /// A store after some calls that are no records.
    fn grow_some(&mut self) {
        let calls = self.some_calls();
        self.grow(calls);
    }
}

/// A store from its opening on, or in its midst.
fn grown(chain: &mut Chain) {
    if chain.random.one_in(3) {
        chain.leaves = (0..3).map(|_| chain.random.next() as u16).collect();
    }
    chain.grow_some();
    if chain.random.one_in(3) {
        chain.open();
    }
    chain.calls(5);
    chain.read_out();
    chain.call_until_done();
}

/// A full store; a map's keys are mostly present then.
fn full(chain: &mut Chain) {
    for small in 0..u64::from(capacity(chain.size)) {
        chain.add(small);
    }
    chain.growth = 8;
    chain.call_until_done();
}

/// A queue whose keys are used up soon, half of them empty. Others are emptied.
fn last_keys(chain: &mut Chain) {
    let empty = chain.structure == QUEUE && chain.random.one_in(2);
    if !empty {
        chain.grow_some();
        chain.growth = 10;
        chain.grow(1);
    }
    match chain.structure {
        QUEUE => {
            let next = u32::MAX - chain.random.pick(&[0, 1, 1, 1, 2, 5]);
            damage::move_keys(&mut chain.state, &mut chain.tree, next);
            chain.growth = 3 + chain.random.below(5);
        }
        _ => chain.growth = 1,
    }
    chain.call_until_done();
}

/// About as many nodes wait as may; then what a 9 leaves.
fn crowded(chain: &mut Chain) {
    while !chain.is_done() {
        chain.reopen();
        chain.scatter = 1;
        if chain.size >= 7 && chain.random.one_in(2) {
            damage::grow_crowd(chain);
        } else {
            chain.leaves.clear();
            chain.grow_some();
            damage::forge_crowd(chain);
        }
        for _ in 0..10 {
            if !chain.is_closed() {
                chain.calls(1);
            }
        }
        after_closing(chain);
    }
}

/// Damage to a store, calls that may find it, and what an 8 leaves.
fn damaged(chain: &mut Chain) {
    chain.leaves = match chain.random.below(3) {
        0 => (0..3).map(|_| chain.random.next() as u16).collect(),
        _ => vec![],
    };
    chain.grow_some();
    chain.growth = 1 + chain.random.below(6);
    let whole = (chain.state.clone(), chain.tree.clone());
    while !chain.is_done() {
        (chain.state, chain.tree) = whole.clone();
        match chain.random.below(10) {
            0 | 1 => {
                let buffers = damage::before_put_rounds(chain);
                chain.call(buffers);
            }
            2 => {
                let buffers = damage::before_a_twin(chain);
                chain.call(buffers);
            }
            _ => damage::any(chain),
        }
        for _ in 0..3 {
            if !chain.is_closed() {
                chain.calls(1);
            }
        }
        if chain.random.one_in(3) {
            after_closing(chain);
        }
    }
}

/// A call and read-outs of a store that is most likely closed.
fn after_closing(chain: &mut Chain) {
    chain.calls(1);
    chain.read_out();
    chain.read_out();
}

/// States that are unfit, most for one cause; a third of the stores are empty.
fn unfit(chain: &mut Chain) {
    if !chain.random.one_in(3) {
        chain.grow_some();
        chain.growth = 10;
        chain.grow(1);
    }
    while !chain.is_done() {
        let mut buffers = chain.buffers();
        unfit::any(&mut chain.random, &mut buffers.state);
        chain.records.push(Record::Call(buffers));
    }
}

fn faulty(chain: &mut Chain) {
    chain.grow_some();
    while !chain.is_done() {
        let buffers = faults::any(chain);
        chain.records.push(Record::Call(buffers));
    }
}

/// Closed stores as for the tests of read-outs, mostly with what only bytes can
/// have.
fn closed(chain: &mut Chain) {
    while !chain.is_done() {
        let store = stores::trial(chain.random.next()).record;
        for _ in 0..4 {
            let (mut state, mut tree) = (state_bytes(&store.state), store.tree.clone());
            for _ in 0..chain.random.pick(&[0, 1, 1, 2]) {
                faults::of_closed(&mut chain.random, &mut state, &mut tree);
            }
            if chain.random.one_in(6) {
                faults::state_length(&mut chain.random, &mut state);
            }
            chain.read_out_of(state, tree);
        }
    }
}

// ---- openings and lengths

/// Numbers that are no structure and, but for 5, no size. Some have the low
/// bits of one.
const NO_NUMBERS: [u64; 10] = [
    0,
    5,
    9,
    65,
    255,
    256,
    257,
    (1 << 32) + 1,
    1 << 63 | 1,
    u64::MAX,
];

fn openings(chain: &mut Chain) {
    chain.grow_some();
    while !chain.is_done() {
        let [structure, size] = some_numbers(chain);
        match chain.random.below(3) {
            0 => chain.records.push(Record::Lengths { structure, size }),
            _ => opening(chain, structure, size),
        }
    }
}

fn some_numbers(chain: &mut Chain) -> [u64; 2] {
    [(chain.structure, 4), (chain.size, 8)].map(|(good, most)| {
        let other = 1 + chain.random.below(most);
        let none = chain.random.pick(&NO_NUMBERS);
        chain
            .random
            .pick(&[u64::from(good), u64::from(good), other, none, none])
    })
}

/// An opening, and sometimes a call or a read-out of what it leaves.
fn opening(chain: &mut Chain, structure: u64, size: u64) {
    let (mut state, mut tree) = (chain.state.clone(), chain.tree.clone());
    let byte = (size as u8 % 64).clamp(1, GREATEST_SIZE);
    tree.resize(tree_bytes(byte), 7);
    if chain.random.one_in(3) {
        faults::tree_length(&mut chain.random, byte, &mut tree);
    }
    if chain.random.one_in(4) {
        faults::state_length(&mut chain.random, &mut state);
    }
    let mut opening = Opening {
        structure,
        size,
        state,
        tree,
    };
    chain.records.push(Record::Open(opening.clone()));
    opening.make::<fast::State>();
    let Opening { state, tree, .. } = opening;
    match chain.random.below(6) {
        0 => chain.call_of(state, tree),
        1 => chain.read_out_of(state, tree),
        _ => {}
    }
}

// ---- any bytes

/// States and trees of any bytes, with some fields that make sense.
fn anything(chain: &mut Chain) {
    while !chain.is_done() {
        let state = any_state(chain);
        let mut tree = any_tree(chain);
        let size = state[at::SIZE];
        if size_is_known(size) && !chain.random.one_in(8) {
            tree.resize(tree_bytes(size), 0);
        }
        match chain.random.below(3) {
            0 => chain.read_out_of(state, tree),
            _ => chain.call_of(state, tree),
        }
    }
}

fn any_state(chain: &mut Chain) -> Vec<u8> {
    let mut state = garbage(&mut chain.random, STATE_BYTES);
    let some = chain.random.below(102);
    let marks = chain.random.pick(&[0, 0, 8, 9]);
    let fields = [
        (at::MARK, 1, marks),
        (at::STRUCTURE, 1, u64::from(chain.structure)),
        (at::SIZE, 1, u64::from(chain.size)),
        (at::ROOT_HEIGHT, 1, some % 2),
        (at::ENTRIES, 2, some % 2),
        (at::WAITING, 2, some),
        (at::ROOT_KEY, 4, some % 2),
        (at::ROOT_TAG, 2, 0),
        (at::TAG_AHEAD, 2, 0),
    ];
    for (at, length, number) in fields {
        if !chain.random.one_in(12) {
            set(&mut state, at, length, number);
        }
    }
    let waiting = get(&state, at::WAITING, 2) as usize;
    for (number, place) in state[at::PLACES..].chunks_mut(SLOT_BYTES).enumerate() {
        place[0] &= 1;
        if number >= waiting && !chain.random.one_in(400) {
            place.fill(0);
        }
    }
    state
}

/// Any bytes, few that are not zero, or a store's.
fn any_tree(chain: &mut Chain) -> Vec<u8> {
    let mut tree = chain.tree.clone();
    match chain.random.below(3) {
        0 => tree = garbage(&mut chain.random, tree.len()),
        1 => {
            let byte = chain.random.index(tree.len());
            tree[byte] = chain.random.next() as u8;
        }
        _ => {}
    }
    tree
}
