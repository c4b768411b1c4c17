//! The store written for reading: Vecs, copies and recursion.

mod branch;
mod heap;
mod map;
mod queue;
mod read_out;
mod round;
mod slot;
mod stack;
mod state;

pub use branch::{Branch, Groups, DAMAGE_FOUND, STEPS};
pub use read_out::read_out;
pub use round::Met;
pub use slot::{passes, path, read_slot, write_slot, Node, Reading, Side};
pub use state::{open, State};

use crate::paper::*;
use crate::Store;
use round::Run;

pub fn call(
    state: &mut State,
    tree: &mut [u8],
    ticket: &[u8],
    tape: &[u16],
    trace: &mut [u16],
) -> Outcome {
    call_and_met(state, tree, ticket, tape, trace).0
}

/// A call, and what it met.
pub fn call_and_met(
    state: &mut State,
    tree: &mut [u8],
    ticket: &[u8],
    tape: &[u16],
    trace: &mut [u16],
) -> (Outcome, Met) {
    call_by(Rule::Zero, state, tree, ticket, tape, trace)
}

/// What is asked of the fields that a ticket's kind does not use.
#[derive(Clone, Copy, Debug, PartialEq, Eq)]
pub enum Rule {
    Zero,
    /// They are ignored, as before 19 was asked about. Only for comparison.
    Ignored,
}

/// A call by one of the rules, and what it met.
pub fn call_by(
    rule: Rule,
    state: &mut State,
    tree: &mut [u8],
    ticket: &[u8],
    tape: &[u16],
    trace: &mut [u16],
) -> (Outcome, Met) {
    if let Some(cause) = refusal(rule, state, tree, ticket, tape, trace) {
        return (Outcome::refused(cause), Met::default());
    }
    let mut run = Run {
        structure: state.structure,
        size: state.size,
        entries: state.entries,
        root: state.root,
        ahead: state.ahead,
        waiting: state.waiting(),
        held: vec![],
        tree,
        tape,
        trace,
        leaves: 0,
        met: Met {
            waiting: state.count,
            ..Met::default()
        },
    };
    let result = run.rounds(Ticket::read(ticket));
    run.leave_in(state);
    let answer = result.unwrap_or_else(|cause| {
        state.mark = cause;
        Answer::Refused(cause)
    });
    let outcome = Outcome {
        answer,
        leaves: run.leaves,
        peak: run.met.peak(),
    };
    (outcome, run.met)
}

/// The first of the causes 1 to 5, 19, 17, 6 and 7 that holds.
fn refusal(
    rule: Rule,
    state: &State,
    tree: &[u8],
    ticket: &[u8],
    tape: &[u16],
    trace: &[u16],
) -> Option<u8> {
    if state.mark != 0 {
        return Some(CLOSED);
    }
    if !state.is_fit() {
        return Some(STATE_UNFIT);
    }
    if tree.len() != tree_bytes(state.size) {
        return Some(TREE_LENGTH);
    }
    if ticket.len() != TICKET_BYTES {
        return Some(TICKET_LENGTH);
    }
    if !kind_fits(state.structure, ticket[0]) {
        return Some(FOREIGN_KIND);
    }
    if rule == Rule::Zero && !Ticket::read(ticket).is_clean() {
        return Some(STRAY_FIELD);
    }
    if ticket[0] == IN && state.ahead.key == u32::MAX {
        return Some(KEYS_USED_UP);
    }
    if tape.len() < tape_length(state.structure, state.size) {
        return Some(TAPE_SHORT);
    }
    if trace.len() < 2 * fetch_rounds(state.structure, state.size) {
        return Some(TRACE_SHORT);
    }
    None
}

impl Store for State {
    fn open(structure: u8, size: u8, tree: &mut [u8]) -> State {
        open(structure, size, tree)
    }

    fn call(&mut self, tree: &mut [u8], ticket: &[u8], tape: &[u16], trace: &mut [u16]) -> Outcome {
        call(self, tree, ticket, tape, trace)
    }

    fn read_out(&self, tree: &[u8], output: &mut [u8]) -> Result<usize, u8> {
        read_out(self, tree, output)
    }

    fn to_plain(&self) -> State {
        self.clone()
    }

    fn from_plain(state: &State) -> State {
        state.clone()
    }
}
