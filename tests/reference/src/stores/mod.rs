//! Random closed stores for the read-out, each from a seed of its own. Seeds in
//! a row go through every structure, size and origin.

pub(crate) mod branch;
pub(crate) mod edit;
mod origin;

pub use branch::{branches, BRANCHES, STATE_CAUSES};

use crate::paper::*;
use crate::plain::{self, State};
use crate::random::Random;
use crate::record::Record;

/// The longest tree and output buffer that a record may have.
const MOST_TREE: usize = 65536;
const MOST_ROOM: usize = 65536;

/// A closed store, to be edited.
#[derive(Clone)]
pub struct Closed {
    pub state: State,
    pub tree: Vec<u8>,
}

pub struct Trial {
    pub record: Record,
    /// Whether the store is as the call that closed it left it.
    pub as_left: bool,
}

/// The store of a seed, and an output buffer for it.
pub fn trial(seed: u64) -> Trial {
    let mut random = Random::new(seed);
    let structure = [MAP, STACK, HEAP, QUEUE][(seed % 4) as usize];
    let size = 1 + (seed / 4 % 8) as u8;
    let (mut store, mut as_left) = match seed / 32 % 6 {
        0 => (
            origin::overflowed(&mut random, structure, 7 + size % 2),
            true,
        ),
        1 | 2 => (origin::damaged(&mut random, structure, size), true),
        _ => (origin::forged(&mut random, structure, size), false),
    };
    for _ in 0..random.pick(&[0, 0, 1, 1, 2, 4, 8]) {
        edit::any(&mut random, &mut store);
        as_left = false;
    }
    for _ in 0..random.pick(&[0, 0, 0, 0, 0, 0, 1, 1, 2]) {
        edit::to_refuse(&mut random, &mut store);
        as_left = false;
    }
    let room = room(&mut random, &store);
    let Closed { state, tree } = store;
    let record = Record { state, tree, room };
    Trial { record, as_left }
}

/// Mostly as much room as the file needs, or little more or less.
fn room(random: &mut Random, store: &Closed) -> usize {
    match plain::read_out(&store.state, &store.tree, &mut vec![0; MOST_ROOM]) {
        Ok(length) => {
            let (less, more) = (random.index(length), length + 1 + random.index(300));
            match random.below(8) {
                0..4 => length,
                4 | 5 => more,
                6 => length - 1,
                _ => random.pick(&[less, 0]),
            }
        }
        Err(_) => random.pick(&[0, 1, 2, 20, 500, 2000, 4000]),
    }
}
