//! The queue's step and its test of a fetched oldest. Each node links left to
//! the next, also the newest, whose next is still to come.

use super::branch::Branch;
use super::round::{Done, Run, Way};
use super::slot::Node;
use crate::paper::*;

pub fn is_sound(node: &Node) -> bool {
    node.left.height == 1
        && Some(node.left.key) == node.key.checked_add(1)
        && node.right.height == 0
}

pub fn step(run: &Run, ticket: Ticket) -> Result<Done, Way> {
    match ticket.kind {
        IN => Ok(enqueue(run, ticket.value)),
        _ => dequeue(run),
    }
}

fn enqueue(run: &Run, value: u64) -> Done {
    if run.entries == capacity(run.size) {
        let branches = vec![Branch::InToFull];
        return unchanged(run, Answer::Refused(FULL), branches);
    }
    let own = match run.entries {
        0 => Ahead {
            tag: run.draw(1),
            ..run.ahead
        },
        _ => run.ahead,
    };
    let ahead = Ahead {
        key: own.key + 1,
        tag: run.draw(2),
    };
    let newest = Node {
        key: own.key,
        tag: own.tag,
        value,
        left: ahead.link(),
        right: Link::NONE,
    };
    Done {
        entries: run.entries + 1,
        root: match run.entries {
            0 => own.link(),
            _ => run.root,
        },
        ahead,
        nodes: vec![newest],
        answer: Answer::Queued,
        branches: vec![match (run.entries, run.ahead.key) {
            (0, 0) => Branch::InToFresh,
            (0, _) => Branch::InAfterEmptied,
            _ => Branch::InBehindOthers,
        }],
    }
}

fn dequeue(run: &Run) -> Result<Done, Way> {
    if run.entries == 0 {
        let branches = vec![match run.ahead.key {
            0 => Branch::OutOfFresh,
            _ => Branch::OutOfEmptied,
        }];
        return Ok(unchanged(run, Answer::Empty, branches));
    }
    let oldest = &run.held.first().ok_or(Way::new())?.node;
    let (root, tag, branch) = match run.entries {
        1 => (Link::NONE, 0, Branch::OutOfLast),
        _ => (oldest.left, run.ahead.tag, Branch::OutBeforeOthers),
    };
    Ok(Done {
        entries: run.entries - 1,
        root,
        ahead: Ahead { tag, ..run.ahead },
        nodes: vec![],
        answer: Answer::Dequeued(oldest.value),
        branches: vec![branch],
    })
}

fn unchanged(run: &Run, answer: Answer, branches: Vec<Branch>) -> Done {
    Done {
        branches,
        ..Done::unchanged(run, answer)
    }
}
