//! A closed store and an output buffer as bytes, for the test and benchmark
//! programs of the read-out: a head of 30 bytes, 101 waiting places, the tree.
//!
//! Head: mark, structure, size, root height (1 byte each); entries, waiting
//! count (2 each); root key (4); root tag (2); next unused key (4); tag drawn
//! ahead (2); two zero bytes; the tree's length (4); the output buffer's length
//! (4).

use crate::paper::*;
use crate::plain::State;

pub const HEAD_BYTES: usize = 30;
/// A waiting place in a record has flag 0 or 1, and its zero bytes are zero.
pub const ZERO_BYTES: [usize; 3] = [3, 22, 23];

#[derive(Clone, Debug, PartialEq, Eq)]
pub struct Record {
    pub state: State,
    pub tree: Vec<u8>,
    /// The output buffer's length.
    pub room: usize,
}

impl Record {
    pub fn bytes(&self) -> Vec<u8> {
        let (state, root) = (&self.state, self.state.root);
        let mut bytes = vec![state.mark, state.structure, state.size, root.height];
        bytes.extend((state.entries as u16).to_le_bytes());
        bytes.extend((state.count as u16).to_le_bytes());
        bytes.extend(root.key.to_le_bytes());
        bytes.extend(root.tag.to_le_bytes());
        bytes.extend(state.ahead.key.to_le_bytes());
        bytes.extend(state.ahead.tag.to_le_bytes());
        bytes.extend([0; 2]);
        bytes.extend((self.tree.len() as u32).to_le_bytes());
        bytes.extend((self.room as u32).to_le_bytes());
        bytes.extend(state.places.concat());
        bytes.extend(&self.tree);
        bytes
    }

    /// The record at the bytes' start and what follows it, if it is whole.
    pub fn read(bytes: &[u8]) -> Option<(Record, &[u8])> {
        let (head, rest) = bytes.split_at_checked(HEAD_BYTES)?;
        let (places, rest) = rest.split_at_checked(PLACES * SLOT_BYTES)?;
        let short = |at: usize| u16::from_le_bytes(head[at..at + 2].try_into().unwrap());
        let long = |at: usize| u32::from_le_bytes(head[at..at + 4].try_into().unwrap());
        let (tree, rest) = rest.split_at_checked(long(22) as usize)?;
        let state = State {
            mark: head[0],
            structure: head[1],
            size: head[2],
            entries: u32::from(short(4)),
            root: Link {
                height: head[3],
                key: long(8),
                tag: short(12),
            },
            ahead: Ahead {
                key: long(14),
                tag: short(18),
            },
            count: usize::from(short(6)),
            places: slots(places),
        };
        let record = Record {
            state,
            tree: tree.to_vec(),
            room: long(26) as usize,
        };
        Some((record, rest))
    }
}

fn slots(bytes: &[u8]) -> Vec<Slot> {
    let slots = bytes.chunks(SLOT_BYTES);
    slots.map(|slot| slot.try_into().unwrap()).collect()
}

/// What is told of a read-out: its number, 0 with a file; the file's length,
/// then the whole output buffer.
pub fn result_bytes(result: Result<usize, u8>, output: &[u8]) -> Vec<u8> {
    let (number, length) = match result {
        Ok(length) => (0, length),
        Err(number) => (number, 0),
    };
    let mut bytes = vec![number];
    bytes.extend((length as u32).to_le_bytes());
    bytes.extend(output);
    bytes
}
