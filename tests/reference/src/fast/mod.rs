//! The store written for speed: fixed arrays, no allocation in a call.

mod heap;
mod map;
mod node;
mod path;
mod queue;
mod read_out;
mod rounds;
mod stack;
mod state;

pub use node::Node;
pub use path::{passes, path_bucket};
pub use read_out::read_out;
pub use state::{open, State};

use crate::paper::*;
use crate::{plain, Store};
use rounds::Rounds;

pub fn call(
    state: &mut State,
    tree: &mut [u8],
    ticket: &[u8],
    tape: &[u16],
    trace: &mut [u16],
) -> Outcome {
    if let Err(cause) = check(state, tree.len(), ticket, tape.len(), trace.len()) {
        return Outcome::refused(cause);
    }
    let ticket = Ticket::read(ticket);
    let structure = state.structure;
    let mut rounds = Rounds::new(state, tree, tape, trace);
    let result = match structure {
        MAP => map::call(&mut rounds, ticket),
        STACK => stack::call(&mut rounds, ticket),
        HEAP => heap::call(&mut rounds, ticket),
        _ => queue::call(&mut rounds, ticket),
    };
    rounds.end();
    let Rounds { leaves, peak, .. } = rounds;
    let answer = result.unwrap_or_else(|cause| {
        state.mark = cause;
        Answer::Refused(cause)
    });
    Outcome {
        answer,
        leaves,
        peak,
    }
}

/// The causes 1 to 5, 19, 17, 6 and 7, in order.
fn check(state: &State, tree: usize, ticket: &[u8], tape: usize, trace: usize) -> Result<(), u8> {
    let unless = |holds: bool, cause: u8| if holds { Ok(()) } else { Err(cause) };
    unless(state.mark == 0, CLOSED)?;
    unless(state.is_fit(), STATE_UNFIT)?;
    unless(tree == tree_bytes(state.size), TREE_LENGTH)?;
    unless(ticket.len() == TICKET_BYTES, TICKET_LENGTH)?;
    unless(kind_fits(state.structure, ticket[0]), FOREIGN_KIND)?;
    unless(!has_stray_field(Ticket::read(ticket)), STRAY_FIELD)?;
    let keys_used_up = ticket[0] == IN && state.ahead.key == u32::MAX;
    unless(!keys_used_up, KEYS_USED_UP)?;
    let rounds = fetch_rounds(state.structure, state.size);
    unless(
        tape >= 2 * rounds + spare_draws(state.structure),
        TAPE_SHORT,
    )?;
    unless(trace >= 2 * rounds, TRACE_SHORT)
}

fn has_stray_field(ticket: Ticket) -> bool {
    let stray = |uses: Uses| !uses.key && ticket.key != 0 || !uses.value && ticket.value != 0;
    uses(ticket.kind).is_some_and(stray)
}

impl Store for State {
    fn open(structure: u8, size: u8, tree: &mut [u8]) -> State {
        open(structure, size, tree)
    }

    fn call(&mut self, tree: &mut [u8], ticket: &[u8], tape: &[u16], trace: &mut [u16]) -> Outcome {
        call(self, tree, ticket, tape, trace)
    }

    fn read_out(&self, tree: &[u8], output: &mut [u8]) -> Result<usize, u8> {
        read_out(self, tree, output)
    }

    fn to_plain(&self) -> plain::State {
        plain::State {
            mark: self.mark,
            structure: self.structure,
            size: self.size,
            entries: self.entries,
            root: self.root,
            ahead: self.ahead,
            count: self.count,
            places: self.places.iter().map(Node::slot).collect(),
        }
    }

    fn from_plain(state: &plain::State) -> State {
        let mut places = [Node::EMPTY; PLACES];
        for (place, slot) in places.iter_mut().zip(&state.places) {
            *place = Node::read(slot);
        }
        State {
            mark: state.mark,
            structure: state.structure,
            size: state.size,
            entries: state.entries,
            root: state.root,
            ahead: state.ahead,
            count: state.count,
            places,
        }
    }
}
