//! Stores that a call finds damage in, overflows, or finds no keys left in.

use super::chain::Chain;
use super::record::Buffers;
use super::{at, get, set};
use crate::fields;
use crate::host::{read_state, state_bytes};
use crate::paper::*;
use crate::plain::{passes, path, read_slot, write_slot, Node, Reading};
use crate::random::Random;
use crate::stores::edit;

type Damage = fn(&mut Chain);

const DAMAGES: [Damage; 11] = [
    bad_slot, bad_slot, any_byte, twice, lose_root, retag_root, spoil_root, spoil_root, spoil_root,
    spoil_any, wait_twice,
];

/// Some damage to a store that is not closed; its state stays fit.
pub fn any(chain: &mut Chain) {
    chain.random.pick(&DAMAGES)(chain);
}

fn slot(tree: &mut [u8], at: usize) -> &mut [u8] {
    &mut tree[SLOT_BYTES * at..][..SLOT_BYTES]
}

fn bad_slot(chain: &mut Chain) {
    edit::tree(&mut chain.random, chain.size, &mut chain.tree);
}

fn any_byte(chain: &mut Chain) {
    let byte = chain.random.index(chain.tree.len());
    chain.tree[byte] ^= 1 << chain.random.below(8);
}

/// A full slot, if there is one.
fn full_slot(chain: &mut Chain) -> Option<usize> {
    let slots = chain.tree.len() / SLOT_BYTES;
    let start = chain.random.index(slots);
    let is_full = |at: &usize| chain.tree[SLOT_BYTES * at] == 1;
    (start..slots).chain(0..start).find(is_full)
}

/// The slot of the node that the root link leads to, if it is in the tree.
fn root_slot(chain: &mut Chain) -> Option<usize> {
    let key = &chain.state[at::ROOT_KEY..at::ROOT_KEY + 4];
    let mut slots = chain.tree.chunks(SLOT_BYTES);
    slots.position(|slot| slot[0] == 1 && slot[4..8] == *key)
}

/// A node comes to the root bucket too.
fn twice(chain: &mut Chain) {
    if let Some(found) = full_slot(chain) {
        let copy = SLOT_BYTES * chain.random.index(BUCKET_SLOTS);
        let start = SLOT_BYTES * found;
        chain.tree.copy_within(start..start + SLOT_BYTES, copy);
    }
}

fn lose_root(chain: &mut Chain) {
    if let Some(found) = root_slot(chain) {
        slot(&mut chain.tree, found).fill(0);
    }
}

/// The root's node gets another tag; it may come to the root bucket for that.
fn retag_root(chain: &mut Chain) {
    let Some(mut found) = root_slot(chain) else {
        return;
    };
    if chain.random.one_in(2) {
        let to = chain.random.index(BUCKET_SLOTS);
        for byte in 0..SLOT_BYTES {
            chain
                .tree
                .swap(SLOT_BYTES * found + byte, SLOT_BYTES * to + byte);
        }
        found = to;
    }
    let bucket = 1 + found / BUCKET_SLOTS;
    let leaves = 0..leaf_count(chain.size) as u16;
    let fitting: Vec<u16> = leaves
        .filter(|&leaf| passes(leaf, chain.size, bucket))
        .collect();
    let tag = chain.random.pick(&fitting);
    set(slot(&mut chain.tree, found), 16, 2, u64::from(tag));
}

fn spoil_root(chain: &mut Chain) {
    if let Some(found) = root_slot(chain) {
        spoil(&mut chain.random, chain.size, slot(&mut chain.tree, found));
    }
}

fn spoil_any(chain: &mut Chain) {
    if let Some(found) = full_slot(chain) {
        spoil(&mut chain.random, chain.size, slot(&mut chain.tree, found));
    }
}

/// Another height or key in a node, which is not bad then.
fn spoil(random: &mut Random, size: u8, slot: &mut [u8]) {
    let Reading::Node(mut node) = read_slot(slot, size, None) else {
        return;
    };
    let link = match random.one_in(2) {
        true => &mut node.left,
        false => &mut node.right,
    };
    match random.below(6) {
        0 => *link = Link::NONE,
        1 => link.height = link.height.saturating_add(1),
        2 => link.height = link.height.saturating_sub(1).max(1),
        3 => link.height = random.pick(&[1, 2, 3, 255]),
        4 if link.height > 0 => link.key = link.key.wrapping_add(1),
        4 => link.height = 1,
        _ => node.key = node.key.wrapping_add(random.pick(&[1, u32::MAX])),
    }
    slot.copy_from_slice(&write_slot(&node));
}

/// A node of the tree comes to wait too.
fn wait_twice(chain: &mut Chain) {
    if let Some(found) = full_slot(chain) {
        let reading = read_slot(slot(&mut chain.tree, found), chain.size, None);
        if let Reading::Node(node) = reading {
            wait(chain, vec![node]);
        }
    }
}

/// More nodes wait, but for keys that wait already and more than may.
fn wait(chain: &mut Chain, more: Vec<Node>) {
    let mut state = read_state(&chain.state).expect("a grown state");
    let mut waiting = state.waiting();
    for node in more {
        let key_waits = waiting.iter().any(|other| other.key == node.key);
        if !key_waits && waiting.len() < WAITING_LIMIT {
            waiting.push(node);
        }
    }
    waiting.sort_by_key(|node| node.key);
    state.set_waiting(&waiting);
    chain.state = state_bytes(&state);
}

/// A call whose put rounds have a leaf of their own, with a bad slot in that
/// leaf's bucket.
pub fn before_put_rounds(chain: &mut Chain) -> Buffers {
    let mut buffers = chain.buffers();
    let (structure, size) = (chain.structure, chain.size);
    let [fetch, put] = [0, leaf_count(size) - 1];
    let first = first_put_draw(structure, size);
    for (at, number) in buffers.tape.chunks_mut(2).enumerate() {
        let leaf = if at < first { fetch } else { put };
        set(number, 0, 2, leaf as u64);
    }
    let bucket = leaf_count(size) + put;
    let bad = BUCKET_SLOTS * (bucket - 1) + chain.random.index(BUCKET_SLOTS);
    slot(&mut buffers.tree, bad)[3] = 1;
    buffers
}

/// A call that adds a node whose key waits already, and finds no room: then the
/// two wait, the new one second. A heap has no such keys.
pub fn before_a_twin(chain: &mut Chain) -> Buffers {
    chain.reopen();
    let last = leaf_count(chain.size) as u16 - 1;
    for key in 1..=BUCKET_SLOTS {
        let stray = write_slot(&stray(key as u32, last));
        slot(&mut chain.tree, key - 1).copy_from_slice(&stray);
    }
    let (kind, key) = match chain.structure {
        STACK => (PUSH, 5),
        QUEUE => (IN, 1000),
        _ => (PUT, 1000),
    };
    match chain.structure {
        STACK => {
            (chain.state[at::ENTRIES], chain.state[at::ROOT_HEIGHT]) = (4, 1);
            set(&mut chain.state, at::ROOT_KEY, 4, 4);
        }
        QUEUE => set(&mut chain.state, at::ROOT_KEY, 4, 1000),
        _ => {}
    }
    wait(chain, vec![stray(key, last)]);
    let mut buffers = chain.buffers_for(fields::clean(kind, key, 7));
    buffers.tape.fill(0);
    buffers
}

// ---- crowded stores

/// Adds with few leaves until about as many wait as may; the size is 7 or 8.
pub fn grow_crowd(chain: &mut Chain) {
    chain.leaves = vec![chain.random.next() as u16];
    chain.growth = 10;
    chain.scatter = 1;
    for small in 0..2 * leaf_count(chain.size) as u64 {
        if chain.waiting() >= 60 || chain.is_closed() {
            return;
        }
        chain.add(small);
    }
}

/// Nodes that nothing links to wait, up to about as many as may, and fill the
/// root bucket or a whole path. The leaves are then such that fetches overflow,
/// or new nodes do. All other keys are small.
pub fn forge_crowd(chain: &mut Chain) {
    let size = chain.size;
    let last = leaf_count(size) as u16 - 1;
    let (tag, buckets, aims) = match chain.random.one_in(2) {
        true => (last, vec![1], [64, 64, 64, 62]),
        false => (0, path(0, size), [64, 63, 61, 58]),
    };
    (chain.leaves, chain.growth) = match tag {
        0 => (vec![0], 8),
        _ => (vec![0, last / 2, last / 4], 3),
    };
    let more = chain.random.pick(&aims) - chain.waiting().min(58) as u32;
    let strays = (1..=more).map(|number| stray(10_000 + 2 * number, tag));
    wait(chain, strays.collect());
    let mut key = 20_000;
    for bucket in buckets {
        for number in 0..BUCKET_SLOTS {
            let slot = slot(&mut chain.tree, BUCKET_SLOTS * (bucket - 1) + number);
            if slot[0] == 0 {
                key += 1;
                slot.copy_from_slice(&write_slot(&stray(key, tag)));
            }
        }
    }
}

fn stray(key: u32, tag: u16) -> Node {
    Node {
        key,
        tag,
        value: u64::from(key),
        left: Link::NONE,
        right: Link::NONE,
    }
}

// ---- queues near the last key

/// Moves the keys of a queue's nodes, so that this is the next unused one.
pub fn move_keys(state: &mut [u8], tree: &mut [u8], next: u32) {
    let root = get(state, at::ROOT_KEY, 4) as u32;
    let old = root.wrapping_add(get(state, at::ENTRIES, 2) as u32);
    let by = next.wrapping_sub(old);
    let moved = |bytes: &mut [u8], at: usize| {
        let key = (get(bytes, at, 4) as u32).wrapping_add(by);
        set(bytes, at, 4, u64::from(key));
    };
    moved(state, at::ROOT_KEY);
    let places = state[at::PLACES..].chunks_mut(SLOT_BYTES);
    for slot in places.chain(tree.chunks_mut(SLOT_BYTES)) {
        if slot[0] == 1 {
            moved(slot, 4);
            moved(slot, 8);
        }
    }
}
