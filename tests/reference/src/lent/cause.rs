//! Why a call from C is refused, told from the bytes that are lent alone, and by
//! another way than `host`'s: every cause that holds, in the order of check.

use super::record::{Buffers, Opening, ReadOut};
use super::{at, get};
use crate::host::{RESULT_BYTES, STATE_BYTES};
use crate::paper::*;
use crate::stores::branch::bad_causes;

/// The numbers whose cause holds.
fn holding<const N: usize>(causes: [(u8, bool); N]) -> Vec<u8> {
    let holding = causes.into_iter().filter(|(_, holds)| *holds);
    holding.map(|(number, _)| number).collect()
}

/// A state as it would be with the right length.
fn whole(state: &[u8]) -> Vec<u8> {
    let mut state = state.to_vec();
    state.resize(STATE_BYTES, 0);
    state
}

fn is_tree_of(size: u64, tree: &[u8]) -> bool {
    tree.len() as u64 == 128 * ((2 << size) - 1)
}

pub fn of_opening(opening: &Opening) -> Vec<u8> {
    let Opening {
        structure,
        size,
        state,
        tree,
    } = opening;
    let known = (1..=8).contains(size);
    holding([
        (18, state.len() != STATE_BYTES),
        (11, !(1..=4).contains(structure)),
        (12, !known),
        (3, known && !is_tree_of(*size, tree)),
    ])
}

pub fn of_call(lent: &Buffers) -> Vec<u8> {
    let state = whole(&lent.state);
    let (structure, size) = (state[at::STRUCTURE], state[at::SIZE]);
    let (known, size_known) = (store_is_known(&state), size_is_known(size));
    let kind = lent.ticket.first().copied();
    let needed = match known {
        true => (
            tape_length(structure, size),
            2 * fetch_rounds(structure, size),
        ),
        false => (0, 0),
    };
    let foreign = kind.is_some_and(|kind| !kind_fits(structure, kind));
    let next = get(&state, at::ROOT_KEY, 4) + get(&state, at::ENTRIES, 2);
    let used_up = structure == QUEUE && next == u64::from(u32::MAX);
    holding([
        (18, has_wrong_length(lent)),
        (1, state[at::MARK] != 0),
        (2, !unfit(&state).is_empty()),
        (3, size_known && !is_tree_of(u64::from(size), &lent.tree)),
        (4, lent.ticket.len() != TICKET_BYTES),
        (5, structure_is_known(structure) && foreign),
        (19, !foreign && has_stray_byte(&lent.ticket)),
        (17, used_up && kind == Some(IN)),
        (6, lent.tape.len() / 2 < needed.0),
        (7, lent.trace.len() / 2 < needed.1),
    ])
}

/// Whether a byte of a field that the kind does not use is not zero, whatever
/// the ticket's length.
fn has_stray_byte(ticket: &[u8]) -> bool {
    let Some(uses) = ticket.first().and_then(|kind| uses(*kind)) else {
        return false;
    };
    let used = |at: usize| if at < 5 { uses.key } else { uses.value };
    let fields = ticket.iter().enumerate().take(TICKET_BYTES).skip(1);
    fields.into_iter().any(|(at, byte)| *byte != 0 && !used(at))
}

pub fn has_wrong_length(lent: &Buffers) -> bool {
    let odd = |numbers: &[u8]| numbers.len() & 1 == 1;
    let wrong = (lent.state.len(), lent.result.len()) != (STATE_BYTES, RESULT_BYTES);
    wrong || odd(&lent.tape) || odd(&lent.trace)
}

/// A read-out's; whether the buffer is too short is told by its number.
pub fn of_read_out(read_out: &ReadOut, number: u8) -> Vec<u8> {
    let state = whole(&read_out.state);
    let size = u64::from(state[at::SIZE]);
    let many = get(&state, at::WAITING, 2) > PLACES as u64;
    let size_known = (1..=8).contains(&size);
    holding([
        (18, read_out.state.len() != STATE_BYTES),
        (14, !matches!(state[at::MARK], 8 | 9)),
        (2, !store_is_known(&state) || many),
        (3, size_known && !is_tree_of(size, &read_out.tree)),
        (15, number == 15 || read_out.out.len() < 2),
    ])
}

fn store_is_known(state: &[u8]) -> bool {
    structure_is_known(state[at::STRUCTURE]) && size_is_known(state[at::SIZE])
}

// ---- unfit states

/// Every cause for which a state is unfit.
pub fn unfit(state: &[u8]) -> Vec<String> {
    let (structure, size) = (state[at::STRUCTURE], state[at::SIZE]);
    let mut causes = vec![];
    if !structure_is_known(structure) {
        causes.push(format!("structure {structure}"));
    }
    if !size_is_known(size) {
        causes.push(format!("size {size}"));
    }
    if causes.is_empty() {
        let entries = get(state, at::ENTRIES, 2);
        if entries >> size != 0 {
            causes.push("too many entries".to_string());
        }
        causes.extend(of_waiting(state));
        let of_root = match entries {
            0 => of_empty_root(state),
            _ => of_root(state),
        };
        let name = STRUCTURES[usize::from(structure) - 1];
        causes.extend(of_root.into_iter().map(|cause| format!("{name}, {cause}")));
    }
    causes
}

fn of_waiting(state: &[u8]) -> Vec<String> {
    let waiting = get(state, at::WAITING, 2) as usize;
    let mut causes = vec![];
    if waiting > WAITING_LIMIT {
        causes.push(format!("{waiting} waiting"));
    }
    let places: Vec<&[u8]> = state[at::PLACES..].chunks(SLOT_BYTES).collect();
    let (used, unused) = places.split_at(waiting.min(PLACES));
    let mut keys = vec![];
    for place in used {
        let bad = bad_causes(place, state[at::SIZE], None);
        if bad.is_empty() {
            keys.push(get(place, 4, 4));
        }
        causes.extend(bad.iter().map(|cause| format!("waiting: {cause}")));
    }
    for pair in keys.windows(2).filter(|pair| pair[0] >= pair[1]) {
        let words = if pair[0] == pair[1] {
            "equal"
        } else {
            "falling"
        };
        causes.push(format!("waiting keys {words}"));
    }
    for (at, _) in unused
        .iter()
        .enumerate()
        .filter(|(_, place)| **place != [0; 32])
    {
        let words = match at {
            0 => "first",
            _ if at + 1 == unused.len() => "last",
            _ => "other",
        };
        causes.push(format!("{words} unused place not zero"));
    }
    causes
}

fn of_empty_root(state: &[u8]) -> Vec<String> {
    let fields = [
        ("root height", u64::from(state[at::ROOT_HEIGHT])),
        ("root tag", get(state, at::ROOT_TAG, 2)),
        ("tag drawn ahead", get(state, at::TAG_AHEAD, 2)),
        // An empty queue's is its next unused key.
        (
            "root key",
            match state[at::STRUCTURE] {
                QUEUE => 0,
                _ => get(state, at::ROOT_KEY, 4),
            },
        ),
    ];
    let filled = fields.into_iter().filter(|(_, number)| *number != 0);
    filled.map(|(name, _)| format!("empty: {name}")).collect()
}

fn of_root(state: &[u8]) -> Vec<String> {
    let (structure, size) = (state[at::STRUCTURE], state[at::SIZE]);
    let height = state[at::ROOT_HEIGHT];
    let [entries, key, tag, ahead] = [
        get(state, at::ENTRIES, 2),
        get(state, at::ROOT_KEY, 4),
        get(state, at::ROOT_TAG, 2),
        get(state, at::TAG_AHEAD, 2),
    ];
    let map = structure == MAP;
    let right_key = match structure {
        STACK => entries,
        HEAP => 1,
        _ => key,
    };
    let ahead_bits = if structure == QUEUE { size } else { 0 };
    let causes = [
        ("root too low", map && entries >> height.min(63) != 0),
        ("root too high", map && entries < least_entries(height)),
        ("root height", !map && height != 1),
        ("root key", key != right_key),
        (
            "key sum",
            structure == QUEUE && key + entries > u64::from(u32::MAX),
        ),
        ("root tag", tag >> size != 0),
        ("tag drawn ahead", ahead >> ahead_bits != 0),
    ];
    let holding = causes.into_iter().filter(|(_, holds)| *holds);
    holding.map(|(name, _)| name.to_string()).collect()
}
