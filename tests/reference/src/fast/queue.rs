//! The queue's calls.

use super::node::{Node, LEFT};
use super::rounds::{Place, Rounds};
use crate::paper::*;

const ROUNDS: usize = 1;
/// The draws of a node on an empty queue, of the tag drawn ahead, and of the
/// put round.
const OWN_TAG: usize = 1;
const TAG_AHEAD: usize = 2;
const PUT_ROUND: usize = 3;

pub fn call(rounds: &mut Rounds, ticket: Ticket) -> Result<Answer, u8> {
    let answer = match ticket.kind {
        IN => enqueue(rounds, ticket.value)?,
        _ => dequeue(rounds)?,
    };
    rounds.put_rounds(PUT_ROUND, ROUNDS)?;
    Ok(answer)
}

fn enqueue(rounds: &mut Rounds, value: u64) -> Result<Answer, u8> {
    rounds.finish_fetching(ROUNDS)?;
    if rounds.state.entries == capacity(rounds.state.size) {
        return Ok(Answer::Refused(FULL));
    }
    if rounds.state.entries == 0 {
        rounds.state.ahead.tag = rounds.draw(OWN_TAG);
        rounds.state.root = rounds.state.ahead.link();
    }
    let Ahead { key, tag } = rounds.state.ahead;
    let ahead = Ahead {
        key: key + 1,
        tag: rounds.draw(TAG_AHEAD),
    };
    let mut newest = Node::new(key, tag, value);
    newest.set_link(LEFT, ahead.link());
    rounds.hold(newest);
    rounds.state.entries += 1;
    rounds.state.ahead = ahead;
    Ok(Answer::Queued)
}

fn dequeue(rounds: &mut Rounds) -> Result<Answer, u8> {
    if rounds.state.entries == 0 {
        rounds.finish_fetching(ROUNDS)?;
        return Ok(Answer::Empty);
    }
    let at = rounds.fetch(Place::Root, |node, link| node.shape() == shape(link.key))?;
    let oldest = rounds.held[at];
    rounds.drop_held(at);
    rounds.state.entries -= 1;
    if rounds.state.entries == 0 {
        rounds.state.root = Link::NONE;
        rounds.state.ahead.tag = 0;
    } else {
        rounds.state.root = oldest.link(LEFT);
    }
    Ok(Answer::Dequeued(oldest.value()))
}

/// The shape of a key's node: flag and left height 1, no right link. The key is
/// a root's, so that there is a next one.
fn shape(key: u32) -> [u64; 2] {
    [1 | 1 << 8 | u64::from(key) << 32, u64::from(key + 1)]
}
