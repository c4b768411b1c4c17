//! The stack's calls.

use super::node::{Node, LEFT, RIGHT};
use super::rounds::{Place, Rounds};
use crate::paper::*;

const ROUNDS: usize = 1;

pub fn call(rounds: &mut Rounds, ticket: Ticket) -> Result<Answer, u8> {
    let answer = match ticket.kind {
        PUSH => push(rounds, ticket.value)?,
        _ => pop(rounds)?,
    };
    rounds.put_rounds(ROUNDS + 1, ROUNDS)?;
    Ok(answer)
}

fn push(rounds: &mut Rounds, value: u64) -> Result<Answer, u8> {
    rounds.finish_fetching(ROUNDS)?;
    if rounds.state.entries == capacity(rounds.state.size) {
        return Ok(Answer::Refused(FULL));
    }
    let key = rounds.state.entries + 1;
    let tag = rounds.draw(ROUNDS);
    let mut top = Node::new(key, tag, value);
    top.set_link(LEFT, rounds.state.root);
    rounds.hold(top);
    rounds.state.entries = key;
    rounds.state.root = Link {
        height: 1,
        key,
        tag,
    };
    Ok(Answer::Pushed)
}

fn pop(rounds: &mut Rounds) -> Result<Answer, u8> {
    if rounds.state.entries == 0 {
        rounds.finish_fetching(ROUNDS)?;
        return Ok(Answer::Empty);
    }
    let at = rounds.fetch(Place::Root, is_sound)?;
    let top = rounds.held[at];
    rounds.drop_held(at);
    rounds.state.entries -= 1;
    rounds.state.root = top.link(LEFT);
    Ok(Answer::Popped(top.value()))
}

fn is_sound(node: &Node, link: Link) -> bool {
    let below = node.link(LEFT);
    let below_is_sound = match link.key {
        1 => below.height == 0,
        key => below.height == 1 && u64::from(below.key) + 1 == u64::from(key),
    };
    below_is_sound && node.side_height(RIGHT) == 0
}
