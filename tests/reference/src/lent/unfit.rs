//! Edits of a state's bytes, after most of which it is unfit.

use super::{at, get, set};
use crate::host::{read_state, state_bytes};
use crate::paper::*;
use crate::plain::Node;
use crate::random::Random;
use crate::stores::edit;

type Edit = fn(&mut Random, &mut [u8]);

const EDITS: [Edit; 26] = [
    structure,
    size,
    too_many_entries,
    other_entries,
    too_many_waiting,
    too_many_waiting,
    count,
    bad_waiting,
    bad_waiting,
    bad_waiting,
    bad_waiting,
    bad_waiting,
    empty_waiting,
    swap_waiting,
    same_key,
    unused_place,
    unused_place,
    root_tag,
    root_tag,
    root_height,
    root_height,
    root_key,
    root_key,
    tag_ahead,
    tag_ahead,
    key_sum,
];

/// One of the edits, of a state that fits.
pub fn any(random: &mut Random, state: &mut [u8]) {
    random.pick(&EDITS)(random, state);
}

fn is_queue(state: &[u8]) -> bool {
    state[at::STRUCTURE] == QUEUE
}

fn place(state: &mut [u8], number: usize) -> &mut [u8] {
    &mut state[at::PLACES + SLOT_BYTES * number..][..SLOT_BYTES]
}

/// As many waiting nodes at least, good and in order.
fn ensure_waiting(random: &mut Random, state: &mut [u8], number: usize) {
    let mut fit = read_state(state).expect("a fit state");
    let mut waiting = fit.waiting();
    while waiting.len() < number {
        let key = random.next() as u32;
        let node = edit::node(random, fit.size, 1, key);
        if waiting.iter().all(|other: &Node| other.key != key) {
            waiting.push(node);
        }
    }
    waiting.sort_by_key(|node| node.key);
    fit.set_waiting(&waiting);
    state.copy_from_slice(&state_bytes(&fit));
}

fn structure(random: &mut Random, state: &mut [u8]) {
    let any = random.next() as u8;
    state[at::STRUCTURE] = random.pick(&[0, 5, 255, any]);
}

fn size(random: &mut Random, state: &mut [u8]) {
    let any = random.next() as u8;
    state[at::SIZE] = random.pick(&[0, 9, 255, any]);
}

/// All else as if there could be so many.
fn too_many_entries(random: &mut Random, state: &mut [u8]) {
    let size = state[at::SIZE];
    let entries = (1 << size) + random.pick(&[0, 0, 1]);
    set(state, at::ENTRIES, 2, entries);
    state[at::ROOT_HEIGHT] = match state[at::STRUCTURE] {
        MAP => size + 1,
        _ => 1,
    };
    match state[at::STRUCTURE] {
        STACK => set(state, at::ROOT_KEY, 4, entries),
        HEAP => set(state, at::ROOT_KEY, 4, 1),
        _ => {}
    }
}

fn other_entries(random: &mut Random, state: &mut [u8]) {
    let (old, any) = (get(state, at::ENTRIES, 2), random.below(1 << 16));
    let below = random.below(1 << state[at::SIZE]);
    let new = random.pick(&[0, old + 1, old.wrapping_sub(1), below, any, 65535]);
    set(state, at::ENTRIES, 2, new);
}

fn too_many_waiting(random: &mut Random, state: &mut [u8]) {
    let number = random.pick(&[65, 65, 101, 102, 65535]);
    ensure_waiting(random, state, number.min(PLACES));
    set(state, at::WAITING, 2, number as u64);
}

/// One more or less than there are.
fn count(random: &mut Random, state: &mut [u8]) {
    let old = get(state, at::WAITING, 2);
    set(state, at::WAITING, 2, (old + 1).min(101));
    if old > 0 && random.one_in(2) {
        set(state, at::WAITING, 2, old - 1);
    }
}

fn bad_waiting(random: &mut Random, state: &mut [u8]) {
    let number = 1 + random.index(3);
    ensure_waiting(random, state, number);
    let size = state[at::SIZE];
    let waiting = get(state, at::WAITING, 2) as usize;
    let number = random.index(waiting);
    edit::spoil_place(random, size, place(state, number));
}

/// An empty place within the count, all zero or not.
fn empty_waiting(random: &mut Random, state: &mut [u8]) {
    ensure_waiting(random, state, 2);
    let waiting = get(state, at::WAITING, 2) as usize;
    let place = place(state, random.index(waiting));
    match random.one_in(2) {
        true => place.fill(0),
        false => place[0] = 0,
    }
}

fn swap_waiting(random: &mut Random, state: &mut [u8]) {
    ensure_waiting(random, state, 2);
    let number = random.index(get(state, at::WAITING, 2) as usize - 1);
    let start = at::PLACES + SLOT_BYTES * number;
    state[start..start + 2 * SLOT_BYTES].rotate_left(SLOT_BYTES);
}

fn same_key(random: &mut Random, state: &mut [u8]) {
    ensure_waiting(random, state, 2);
    let number = random.index(get(state, at::WAITING, 2) as usize - 1);
    let key = get(place(state, number), 4, 4);
    set(place(state, number + 1), 4, 4, key);
}

/// A nonzero byte, or a good node, beyond the count.
fn unused_place(random: &mut Random, state: &mut [u8]) {
    let waiting = get(state, at::WAITING, 2) as usize;
    let any = waiting + random.index(PLACES - waiting);
    let number = random.pick(&[waiting, any, PLACES - 1]);
    match random.one_in(3) {
        true => {
            let node = edit::node(random, state[at::SIZE], 1, u32::MAX);
            place(state, number).copy_from_slice(&crate::plain::write_slot(&node));
        }
        false => {
            let byte = random.pick(&[0, 1, 3, 4, 16, 31]);
            place(state, number)[byte] = random.pick(&[1, 2, 255]);
        }
    }
}

/// No leaf, or any, of a store with entries; nonzero without.
fn root_tag(random: &mut Random, state: &mut [u8]) {
    let leaves = 1 << state[at::SIZE];
    let tag = random.pick(&[leaves, leaves, leaves - 1, leaves + 1, 1, 256, 65535]);
    set(state, at::ROOT_TAG, 2, tag);
}

fn root_height(random: &mut Random, state: &mut [u8]) {
    let (old, any) = (state[at::ROOT_HEIGHT], random.below(12) as u8);
    let near = [old.wrapping_sub(1), old.wrapping_add(1)];
    state[at::ROOT_HEIGHT] = random.pick(&[near[0], near[1], 0, 1, 2, any, 255]);
}

fn root_key(random: &mut Random, state: &mut [u8]) {
    let old = get(state, at::ROOT_KEY, 4);
    let any = random.next();
    let new = random.pick(&[old + 1, old.wrapping_sub(1), 0, 1, 256, 1 << 24, any]);
    set(state, at::ROOT_KEY, 4, new);
}

fn tag_ahead(random: &mut Random, state: &mut [u8]) {
    let leaves = 1 << state[at::SIZE];
    let tag = random.pick(&[leaves, leaves - 1, leaves + 1, 1, 256, 65535]);
    set(state, at::TAG_AHEAD, 2, tag);
}

/// At the greatest key or beyond it, of a queue.
fn key_sum(random: &mut Random, state: &mut [u8]) {
    if !is_queue(state) {
        return root_height(random, state);
    }
    let entries = get(state, at::ENTRIES, 2);
    let greatest = u64::from(u32::MAX);
    let last = greatest - entries;
    let root = random.pick(&[last, last - 1, last + 1, last + 1, greatest]);
    set(state, at::ROOT_KEY, 4, root.min(greatest));
}
