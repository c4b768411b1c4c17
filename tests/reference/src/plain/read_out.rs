//! Reading out a closed store: every node that can be taken, in a file.

use super::slot::{read_slot, Reading};
use super::state::State;
use crate::paper::*;
use std::collections::btree_map::{BTreeMap, Entry};

/// Writes the file to the output's start. Returns its length, or the number of
/// a refusal, which writes nothing.
pub fn read_out(state: &State, tree: &[u8], output: &mut [u8]) -> Result<usize, u8> {
    if let Some(cause) = refusal(state, tree) {
        return Err(cause);
    }
    let file = file(state, tree);
    let room = output.get_mut(..file.len()).ok_or(OUTPUT_SHORT)?;
    room.copy_from_slice(&file);
    Ok(file.len())
}

/// The first of the causes 14, 2 and 3 that holds.
fn refusal(state: &State, tree: &[u8]) -> Option<u8> {
    if state.mark != DAMAGE && state.mark != OVERFLOW {
        return Some(NOT_CLOSED);
    }
    if !structure_is_known(state.structure) || !size_is_known(state.size) || state.count > PLACES {
        return Some(STATE_UNFIT);
    }
    if tree.len() != tree_bytes(state.size) {
        return Some(TREE_LENGTH);
    }
    None
}

fn file(state: &State, tree: &[u8]) -> Vec<u8> {
    let mut values = BTreeMap::new();
    let mut left_out = BTreeMap::new();
    for (place, reading) in waiting(state, tree.len()).chain(slots(state, tree)) {
        match reading {
            Reading::Empty => {}
            Reading::Bad => {
                left_out.insert(place, BAD);
            }
            Reading::Node(node) => match values.entry(node.key) {
                Entry::Vacant(free) => {
                    free.insert(node.value);
                }
                Entry::Occupied(_) => {
                    left_out.insert(place, REPEATED);
                }
            },
        }
    }
    file_bytes(&values, &left_out)
}

/// The waiting places within the count, by place; an empty one is bad.
fn waiting(state: &State, tree_length: usize) -> impl Iterator<Item = (usize, Reading)> + '_ {
    let within_count = state.places[..state.count].iter().enumerate();
    within_count.map(move |(number, slot)| {
        let reading = match read_slot(slot, state.size, None) {
            Reading::Empty => Reading::Bad,
            reading => reading,
        };
        (tree_length + SLOT_BYTES * number, reading)
    })
}

/// The tree's slots, by place.
fn slots<'a>(state: &'a State, tree: &'a [u8]) -> impl Iterator<Item = (usize, Reading)> + 'a {
    tree.chunks(SLOT_BYTES).enumerate().map(|(at, slot)| {
        let bucket = 1 + at / BUCKET_SLOTS;
        let reading = read_slot(slot, state.size, Some(bucket));
        (SLOT_BYTES * at, reading)
    })
}

/// The file of the values by key and the reasons by place.
fn file_bytes(values: &BTreeMap<u32, u64>, left_out: &BTreeMap<usize, u8>) -> Vec<u8> {
    let mut file = (values.len() as u16).to_le_bytes().to_vec();
    let first_value = 2 + 8 * values.len();
    for (at, key) in values.keys().enumerate() {
        file.extend(key.to_le_bytes());
        file.extend(((first_value + 8 * at) as u32).to_le_bytes());
    }
    for value in values.values() {
        file.extend(value.to_le_bytes());
    }
    for (&place, &reason) in left_out {
        file.extend((place as u32).to_le_bytes());
        file.push(reason);
    }
    file
}
