//! The stack's step and its test of a fetched top.

use super::round::{Done, Run, Way};
use super::slot::Node;
use crate::paper::*;

pub fn is_sound(node: &Node) -> bool {
    let left_is_sound = if node.key == 1 {
        node.left.height == 0
    } else {
        node.left.height == 1 && node.left.key == node.key.wrapping_sub(1)
    };
    left_is_sound && node.right.height == 0
}

pub fn step(run: &Run, ticket: Ticket) -> Result<Done, Way> {
    match ticket.kind {
        PUSH => Ok(push(run, ticket.value)),
        _ => pop(run),
    }
}

fn push(run: &Run, value: u64) -> Done {
    if run.entries == capacity(run.size) {
        return Done::unchanged(run, Answer::Refused(FULL));
    }
    let key = run.entries + 1;
    let tag = run.draw(1);
    let top = Node {
        key,
        tag,
        value,
        left: run.root,
        right: Link::NONE,
    };
    Done {
        entries: key,
        root: top.link_here_in_stack(),
        ahead: Ahead::NONE,
        nodes: vec![top],
        answer: Answer::Pushed,
        branches: vec![],
    }
}

fn pop(run: &Run) -> Result<Done, Way> {
    if run.entries == 0 {
        return Ok(Done::unchanged(run, Answer::Empty));
    }
    let top = &run.held.first().ok_or(Way::new())?.node;
    Ok(Done {
        entries: run.entries - 1,
        root: top.left,
        ahead: Ahead::NONE,
        nodes: vec![],
        answer: Answer::Popped(top.value),
        branches: vec![],
    })
}

impl Node {
    /// Every link of a stack has height 1.
    fn link_here_in_stack(&self) -> Link {
        Link {
            height: 1,
            key: self.key,
            tag: self.tag,
        }
    }
}
