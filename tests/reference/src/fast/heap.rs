//! The heap's calls. The path's nodes are held in order from index 0, so the
//! one at a depth has that index; the nodes that a take fetches while it sinks
//! follow. A take first plans its way down, fetching as it goes, and moves the
//! numbers in the step.

use super::node::Node;
use super::rounds::{Place, Rounds};
use crate::paper::*;

/// Nodes on a path at most.
const PATH: usize = GREATEST_SIZE as usize;

/// The held nodes below the root that a sinking number passes.
struct Descent {
    nodes: [usize; PATH],
    length: usize,
}

pub fn call(rounds: &mut Rounds, ticket: Ticket) -> Result<Answer, u8> {
    let fetches = fetch_rounds(HEAP, rounds.state.size);
    let answer = match ticket.kind {
        ADD => add(rounds, fetches, ticket.value)?,
        _ => take(rounds, fetches)?,
    };
    rounds.put_rounds(fetches + 1, fetches)?;
    Ok(answer)
}

fn add(rounds: &mut Rounds, fetches: usize, number: u64) -> Result<Answer, u8> {
    let position = rounds.state.entries + 1;
    if position > capacity(rounds.state.size) {
        rounds.finish_fetching(fetches)?;
        return Ok(Answer::Refused(FULL));
    }
    fetch_path(rounds, position / 2)?;
    rounds.finish_fetching(fetches)?;
    let tag = rounds.draw(fetches);
    let at = rounds.hold(Node::new(position, tag, number));
    let link = Link {
        height: 1,
        key: position,
        tag,
    };
    set_link_to(rounds, position, at, link);
    rise(rounds, at, number);
    rounds.state.entries = position;
    Ok(Answer::Added)
}

fn take(rounds: &mut Rounds, fetches: usize) -> Result<Answer, u8> {
    let last = rounds.state.entries;
    if last == 0 {
        rounds.finish_fetching(fetches)?;
        return Ok(Answer::Empty);
    }
    fetch_path(rounds, last)?;
    let at = last.ilog2() as usize;
    let number = rounds.held[at].value();
    let descent = plan_descent(rounds, last, number)?;
    rounds.finish_fetching(fetches)?;
    let smallest = rounds.held[0].value();
    sink(rounds, &descent, number);
    set_link_to(rounds, last, at, Link::NONE);
    rounds.drop_held(at);
    rounds.state.entries = last - 1;
    Ok(Answer::Taken(smallest))
}

/// Fetches the path from the root to a position; that of position 0 is empty.
fn fetch_path(rounds: &mut Rounds, position: u32) -> Result<(), u8> {
    let length = (u32::BITS - position.leading_zeros()) as usize;
    for depth in 0..length {
        let next = position >> (length - 1 - depth);
        let place = match depth {
            0 => Place::Root,
            _ => Place::Below(depth - 1, side_of(next)),
        };
        fetch(rounds, place, next)?;
    }
    Ok(())
}

/// The way of a number from the root down. The last position is about to
/// leave: the children that there are then come before it.
fn plan_descent(rounds: &mut Rounds, last: u32, number: u64) -> Result<Descent, u8> {
    let mut descent = Descent {
        nodes: [0; PATH],
        length: 0,
    };
    let (mut position, mut at) = (1, 0);
    while 2 * position < last {
        let mut child = 2 * position;
        let mut child_at = fetch_child(rounds, at, child, last)?;
        if child + 1 < last {
            let right_at = fetch_child(rounds, at, child + 1, last)?;
            if rounds.held[right_at].value() < rounds.held[child_at].value() {
                (child, child_at) = (child + 1, right_at);
            }
        }
        if rounds.held[child_at].value() >= number {
            break;
        }
        descent.nodes[descent.length] = child_at;
        descent.length += 1;
        (position, at) = (child, child_at);
    }
    Ok(descent)
}

/// Where the child of a node is held; it is fetched unless the path to the
/// last position has it.
fn fetch_child(rounds: &mut Rounds, at: usize, child: u32, last: u32) -> Result<usize, u8> {
    let depth = child.ilog2();
    if last >> (last.ilog2() - depth) == child {
        return Ok(depth as usize);
    }
    fetch(rounds, Place::Below(at, side_of(child)), child)
}

fn fetch(rounds: &mut Rounds, place: Place, position: u32) -> Result<usize, u8> {
    let shape = shape(position, rounds.state.entries);
    rounds.fetch(place, |node, _| node.shape() == shape)
}

/// The shape of a position's node, with so many entries.
fn shape(position: u32, entries: u32) -> [u64; 2] {
    let (left, right) = (2 * position, 2 * position + 1);
    let left_height = u64::from(left <= entries);
    let right_height = u64::from(right <= entries);
    let left_key = left_height * u64::from(left);
    let right_key = right_height * u64::from(right);
    let head = 1 | left_height << 8 | right_height << 16 | u64::from(position) << 32;
    [head, left_key | right_key << 32]
}

/// The number moves up from a held node of the path while it is smaller.
fn rise(rounds: &mut Rounds, mut at: usize, number: u64) {
    let held = &mut rounds.held;
    while at > 0 && number < held[at - 1].value() {
        let larger = held[at - 1].value();
        held[at].set_value(larger);
        at -= 1;
    }
    held[at].set_value(number);
}

/// The numbers on the descent move up by one, and this one to its end.
fn sink(rounds: &mut Rounds, descent: &Descent, number: u64) {
    let held = &mut rounds.held;
    let mut at = 0;
    for &below in &descent.nodes[..descent.length] {
        let smaller = held[below].value();
        held[at].set_value(smaller);
        at = below;
    }
    held[at].set_value(number);
}

/// Sets the link to a position whose node is, as the path's last, held at `at`.
fn set_link_to(rounds: &mut Rounds, position: u32, at: usize, link: Link) {
    match at {
        0 => rounds.state.root = link,
        _ => rounds.held[at - 1].set_link(side_of(position), link),
    }
}

/// Left positions are even, right ones odd.
fn side_of(position: u32) -> usize {
    position as usize & 1
}
