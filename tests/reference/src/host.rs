//! The store over numbers and byte buffers, as a C host calls it.
//!
//! A state is 3,248 bytes: closed mark, structure, size, root height (1 byte
//! each); entries, waiting (2 each); root key (4); root tag, tag drawn ahead (2
//! each); then the 101 places. A queue's next unused key is the root key plus
//! the entries, so an empty one keeps it as its root key.

use crate::paper::*;
use crate::plain::State;
use crate::Store;

const HEAD_BYTES: usize = 16;
pub const STATE_BYTES: usize = HEAD_BYTES + PLACES * SLOT_BYTES;
pub const RESULT_BYTES: usize = 12;

/// The buffers of a call.
pub struct Lent<'a> {
    pub state: &'a mut [u8],
    pub tree: &'a mut [u8],
    pub ticket: &'a [u8],
    pub tape: &'a [u8],
    pub trace: &'a mut [u8],
    pub result: &'a mut [u8],
}

/// Opens a store: 0, or the number of the refusal.
pub fn open<S: Store>(structure: u64, size: u64, state: &mut [u8], tree: &mut [u8]) -> u8 {
    if state.len() != STATE_BYTES {
        return BUFFER_LENGTH;
    }
    let opened = S::open(known_or_zero(structure), known_or_zero(size), tree).to_plain();
    state.copy_from_slice(&state_bytes(&opened));
    opened.mark
}

/// Makes a call: 0 with an answer, or the number of the refusal.
pub fn call<S: Store>(lent: &mut Lent) -> u8 {
    outcome::<S>(lent).map_or_else(|cause| cause, |outcome| outcome.cause())
}

/// A call's outcome, or the number of a refusal that stands before it.
pub fn outcome<S: Store>(lent: &mut Lent) -> Result<Outcome, u8> {
    if lengths_are_wrong(lent) {
        return Err(BUFFER_LENGTH);
    }
    let state = fields(lent.state);
    if state.mark != 0 {
        return Err(CLOSED);
    }
    let state = with_next_key(state).ok_or(STATE_UNFIT)?;
    let mut store = S::from_plain(&state);
    let tape = numbers(lent.tape);
    let mut trace = numbers(lent.trace);
    let outcome = store.call(lent.tree, lent.ticket, &tape, &mut trace);
    if outcome.leaves > 0 {
        let state = state_bytes(&store.to_plain());
        lent.state.copy_from_slice(&state);
        lent.trace.copy_from_slice(&number_bytes(&trace));
        lent.result.copy_from_slice(&result_bytes(outcome));
    }
    Ok(outcome)
}

/// Reads a closed store out: the number, 0 with a file, and the file's length,
/// 0 without.
pub fn read_out<S: Store>(state: &[u8], tree: &[u8], out: &mut [u8]) -> (u8, u64) {
    if state.len() != STATE_BYTES {
        return (BUFFER_LENGTH, 0);
    }
    // It asks about no link and no key to come.
    match S::from_plain(&fields(state)).read_out(tree, out) {
        Ok(length) => (0, length as u64),
        Err(cause) => (cause, 0),
    }
}

fn lengths_are_wrong(lent: &Lent) -> bool {
    lent.state.len() != STATE_BYTES
        || lent.result.len() != RESULT_BYTES
        || lent.tape.len() % 2 == 1
        || lent.trace.len() % 2 == 1
}

// ---- lengths to lend, 0 where there is no such structure or size

/// A structure or size as a byte; 0, which is neither, for a greater number.
fn known_or_zero(number: u64) -> u8 {
    u8::try_from(number).unwrap_or(0)
}

fn known_size(size: u64) -> Option<u8> {
    let size = known_or_zero(size);
    size_is_known(size).then_some(size)
}

fn known_store(structure: u64, size: u64) -> Option<(u8, u8)> {
    let structure = known_or_zero(structure);
    let size = known_size(size)?;
    structure_is_known(structure).then_some((structure, size))
}

pub fn tree_to_lend(size: u64) -> u64 {
    known_size(size).map_or(0, |size| tree_bytes(size) as u64)
}

pub fn tape_to_lend(structure: u64, size: u64) -> u64 {
    known_store(structure, size).map_or(0, |(structure, size)| {
        2 * tape_length(structure, size) as u64
    })
}

pub fn trace_to_lend(structure: u64, size: u64) -> u64 {
    known_store(structure, size).map_or(0, |(structure, size)| {
        2 * 2 * fetch_rounds(structure, size) as u64
    })
}

/// Room for a file with an entry for every slot and place.
pub fn out_to_lend(size: u64) -> u64 {
    known_size(size).map_or(0, |size| {
        let slots = tree_bytes(size) / SLOT_BYTES;
        2 + 16 * (slots + PLACES) as u64
    })
}

// ---- the state as bytes

/// What stands in a state's bytes, a root key as it is there; nothing ahead but
/// the tag.
fn fields(bytes: &[u8]) -> State {
    let short = |at: usize| u16::from_le_bytes(bytes[at..at + 2].try_into().unwrap());
    let places = bytes[HEAD_BYTES..].chunks(SLOT_BYTES);
    State {
        mark: bytes[0],
        structure: bytes[1],
        size: bytes[2],
        entries: u32::from(short(4)),
        root: Link {
            height: bytes[3],
            key: u32::from_le_bytes(bytes[8..12].try_into().unwrap()),
            tag: short(12),
        },
        ahead: Ahead {
            key: 0,
            tag: short(14),
        },
        count: usize::from(short(6)),
        places: places.map(|place| place.try_into().unwrap()).collect(),
    }
}

/// With a queue's next unused key, which is no part of an empty one's root
/// link; none if it would be too large for a key.
fn with_next_key(mut state: State) -> Option<State> {
    if state.structure == QUEUE {
        state.ahead.key = state.root.key.checked_add(state.entries)?;
        if state.entries == 0 {
            state.root.key = 0;
        }
    }
    Some(state)
}

/// The state in its bytes, if a queue's next unused key is none too large.
pub fn read_state(bytes: &[u8]) -> Option<State> {
    with_next_key(fields(bytes))
}

pub fn state_bytes(state: &State) -> Vec<u8> {
    let root_key = match (state.structure, state.entries) {
        (QUEUE, 0) => state.ahead.key,
        _ => state.root.key,
    };
    let mut bytes = vec![state.mark, state.structure, state.size, state.root.height];
    bytes.extend((state.entries as u16).to_le_bytes());
    bytes.extend((state.count as u16).to_le_bytes());
    bytes.extend(root_key.to_le_bytes());
    bytes.extend(state.root.tag.to_le_bytes());
    bytes.extend(state.ahead.tag.to_le_bytes());
    bytes.extend(state.places.concat());
    bytes
}

// ---- tape, trace and result

fn numbers(bytes: &[u8]) -> Vec<u16> {
    let pairs = bytes.chunks(2);
    pairs
        .map(|pair| u16::from_le_bytes(pair.try_into().unwrap()))
        .collect()
}

pub fn number_bytes(numbers: &[u16]) -> Vec<u8> {
    let bytes = numbers.iter().flat_map(|number| number.to_le_bytes());
    bytes.collect()
}

/// 1 if there is a value, leaves, largest count, a zero byte, the value.
fn result_bytes(outcome: Outcome) -> [u8; RESULT_BYTES] {
    let value = outcome.answer.value();
    let mut bytes = [0; RESULT_BYTES];
    bytes[0] = u8::from(value.is_some());
    bytes[1] = outcome.leaves as u8;
    bytes[2] = outcome.peak as u8;
    bytes[4..].copy_from_slice(&value.unwrap_or(0).to_le_bytes());
    bytes
}
