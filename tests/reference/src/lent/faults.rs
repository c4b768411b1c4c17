//! Calls with one or more of the causes for which they are refused before they
//! reveal a leaf, wrong lengths among them.

use super::chain::Chain;
use super::record::Buffers;
use super::{at, damage, garbage, get, set, unfit};
use crate::fields;
use crate::host::STATE_BYTES;
use crate::paper::*;
use crate::random::Random;

/// In the order in which they can be made, so that one does not undo another.
const CAUSES: [u8; 10] = [17, 19, 2, 1, 3, 5, 4, 6, 7, 18];

/// A call with one, two or more causes at once.
pub fn any(chain: &mut Chain) -> Buffers {
    let mut causes = CAUSES.to_vec();
    causes.retain(|&cause| cause != 17 || chain.structure == QUEUE);
    chain.random.shuffle(&mut causes);
    if chain.structure == QUEUE && chain.random.one_in(3) {
        causes.insert(0, 17);
    }
    let number = chain.random.pick(&[1, 1, 1, 1, 2, 2, 2, 2, 3, 5]);
    causes.truncate(number);
    let mut buffers = chain.buffers();
    for cause in CAUSES {
        if causes.contains(&cause) {
            make(chain, &mut buffers, cause);
        }
    }
    buffers
}

fn make(chain: &mut Chain, buffers: &mut Buffers, cause: u8) {
    let random = &mut chain.random;
    let (structure, size) = (chain.structure, chain.size);
    match cause {
        17 => {
            buffers.ticket[0] = IN;
            damage::move_keys(&mut buffers.state, &mut buffers.tree, u32::MAX);
        }
        19 => stray_field(random, structure, &mut buffers.ticket),
        2 => unfit::any(random, &mut buffers.state),
        1 => close(random, &mut buffers.state),
        3 => tree_length(random, size, &mut buffers.tree),
        5 => buffers.ticket[0] = foreign_kind(random, structure),
        4 => ticket_length(random, &mut buffers.ticket),
        6 => shorten(random, &mut buffers.tape, 2 * tape_length(structure, size)),
        7 => shorten(
            random,
            &mut buffers.trace,
            4 * fetch_rounds(structure, size),
        ),
        _ => wrong_length(random, buffers),
    }
}

/// Of the same kind, if it has a field that it does not use.
fn stray_field(random: &mut Random, structure: u8, ticket: &mut Vec<u8>) {
    let stray = match ticket[0] {
        PUT => fields::stray_of(random, structure),
        kind => fields::stray(random, kind),
    };
    *ticket = stray.bytes().to_vec();
}

/// Any mark; the rest may be anything then.
fn close(random: &mut Random, state: &mut Vec<u8>) {
    if random.one_in(4) {
        *state = garbage(random, STATE_BYTES);
    }
    let any = 1 + random.below(255) as u8;
    state[at::MARK] = random.pick(&[1, 8, 9, 18, 255, any]);
}

/// A length that is not the tree's.
pub fn tree_length(random: &mut Random, size: u8, tree: &mut Vec<u8>) {
    let right = tree_bytes(size);
    let other = tree_bytes(1 + (size + random.below(7) as u8) % 8);
    let less = random.index(right);
    let length = random.pick(&[
        right + 1,
        right - 1,
        right + BUCKET_BYTES,
        right - BUCKET_BYTES,
        other,
        less,
        0,
    ]);
    tree.resize(length, 0);
}

fn foreign_kind(random: &mut Random, structure: u8) -> u8 {
    let any = random.next() as u8;
    let mut kinds = vec![0, 1, 2, 3, 4, 5, 6, 7, 8, 9, 10, 255, any];
    kinds.retain(|&kind| !kind_fits(structure, kind));
    random.pick(&kinds)
}

fn ticket_length(random: &mut Random, ticket: &mut Vec<u8>) {
    let kind = ticket[0];
    ticket.resize(random.pick(&[0, 0, 1, 12, 12, 14, 14, 17, 30]), kind);
}

/// Fewer numbers than a call takes.
fn shorten(random: &mut Random, numbers: &mut Vec<u8>, least: usize) {
    let any = 2 * random.index(least / 2);
    numbers.truncate(random.pick(&[least - 2, least - 2, any, 0]));
}

/// A cause of 18.
fn wrong_length(random: &mut Random, buffers: &mut Buffers) {
    match random.below(4) {
        0 => state_length(random, &mut buffers.state),
        1 => {
            let length = random.pick(&[0, 11, 13, 1, 24]);
            buffers.result.resize(length, 0);
        }
        2 => odd_length(random, &mut buffers.tape),
        _ => odd_length(random, &mut buffers.trace),
    }
}

pub fn state_length(random: &mut Random, state: &mut Vec<u8>) {
    let less = random.index(STATE_BYTES);
    let length = random.pick(&[
        STATE_BYTES - 1,
        STATE_BYTES + 1,
        STATE_BYTES + SLOT_BYTES,
        2 * STATE_BYTES,
        less,
        0,
    ]);
    state.resize(length, 0);
}

/// One byte more or less.
fn odd_length(random: &mut Random, numbers: &mut Vec<u8>) {
    if random.one_in(2) && !numbers.is_empty() {
        numbers.pop();
    } else {
        numbers.push(random.next() as u8);
    }
}

// ---- read-outs

/// An edit of a closed store, after which a read-out may be refused.
pub fn of_closed(random: &mut Random, state: &mut [u8], tree: &mut Vec<u8>) {
    let any = random.next() as u8;
    match random.below(12) {
        0..3 => state[at::MARK] = random.pick(&[0, 1, 3, 7, 10, 11, 12, 255]),
        3 => state[at::STRUCTURE] = random.pick(&[0, 5, 255, any]),
        4 => state[at::SIZE] = random.pick(&[0, 9, 255, any]),
        5 => set(state, at::WAITING, 2, random.pick(&[102, 103, 65535])),
        6 | 7 => tree_length(random, state[at::SIZE].clamp(1, 8), tree),
        8 => {
            // A queue with a key sum that is too large.
            state[at::STRUCTURE] = QUEUE;
            set(state, at::ENTRIES, 2, 2);
            set(state, at::ROOT_KEY, 4, u64::from(u32::MAX));
        }
        _ => {
            let waiting = get(state, at::WAITING, 2).min(100) as usize;
            let number = random.pick(&[0, waiting / 2, waiting / 2, waiting]);
            let byte = at::PLACES + SLOT_BYTES * number + random.pick(&[0, 0, 0, 3, 22, 23]);
            state[byte] = random.pick(&[1, 2, 2, 255]);
        }
    }
}
