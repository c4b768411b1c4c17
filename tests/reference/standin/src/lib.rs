//! The functions of include/puzlorig.h over the reference: an archive to build
//! C programs with where the proved one is not, and to see them fail with.

use reference::fast::State;
use reference::host::{self, Lent};
use reference::paper::TICKET_BYTES;
use std::slice::{from_raw_parts, from_raw_parts_mut};

#[no_mangle]
pub extern "C" fn puzlorig_state_length() -> u64 {
    host::STATE_BYTES as u64
}

#[no_mangle]
pub extern "C" fn puzlorig_tree_length(size: u64) -> u64 {
    host::tree_to_lend(size)
}

#[no_mangle]
pub extern "C" fn puzlorig_ticket_length() -> u64 {
    TICKET_BYTES as u64
}

#[no_mangle]
pub extern "C" fn puzlorig_tape_length(structure: u64, size: u64) -> u64 {
    host::tape_to_lend(structure, size)
}

#[no_mangle]
pub extern "C" fn puzlorig_trace_length(structure: u64, size: u64) -> u64 {
    host::trace_to_lend(structure, size)
}

#[no_mangle]
pub extern "C" fn puzlorig_result_length() -> u64 {
    host::RESULT_BYTES as u64
}

#[no_mangle]
pub extern "C" fn puzlorig_read_out_length(size: u64) -> u64 {
    host::out_to_lend(size)
}

/// # Safety
/// The buffers are as the header says.
#[no_mangle]
pub unsafe extern "C" fn puzlorig_open(
    structure: u64,
    size: u64,
    state: *mut u8,
    state_length: usize,
    tree: *mut u8,
    tree_length: usize,
) -> u32 {
    let state = from_raw_parts_mut(state, state_length);
    let tree = from_raw_parts_mut(tree, tree_length);
    u32::from(host::open::<State>(structure, size, state, tree))
}

/// # Safety
/// The buffers are as the header says.
#[no_mangle]
pub unsafe extern "C" fn puzlorig_call(
    state: *mut u8,
    state_length: usize,
    tree: *mut u8,
    tree_length: usize,
    ticket: *const u8,
    ticket_length: usize,
    tape: *const u8,
    tape_length: usize,
    trace: *mut u8,
    trace_length: usize,
    result: *mut u8,
    result_length: usize,
) -> u32 {
    let mut lent = Lent {
        state: from_raw_parts_mut(state, state_length),
        tree: from_raw_parts_mut(tree, tree_length),
        ticket: from_raw_parts(ticket, ticket_length),
        tape: from_raw_parts(tape, tape_length),
        trace: from_raw_parts_mut(trace, trace_length),
        result: from_raw_parts_mut(result, result_length),
    };
    u32::from(host::call::<State>(&mut lent))
}

/// # Safety
/// The buffers are as the header says.
#[no_mangle]
pub unsafe extern "C" fn puzlorig_read_out(
    state: *const u8,
    state_length: usize,
    tree: *const u8,
    tree_length: usize,
    out: *mut u8,
    out_length: usize,
    file_length: *mut u64,
) -> u32 {
    let state = from_raw_parts(state, state_length);
    let tree = from_raw_parts(tree, tree_length);
    let out = from_raw_parts_mut(out, out_length);
    let (number, length) = host::read_out::<State>(state, tree, out);
    *file_length = length;
    u32::from(number)
}
