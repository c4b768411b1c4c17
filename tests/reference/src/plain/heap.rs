//! The heap's step and its test of a fetched position. Position i is the node
//! with key i; the numbers move between nodes, and keys, tags and links stay.
//! As with the map, the step stops with the way to the first node it lacks.

use super::branch::Branch;
use super::round::{Done, Held, Run, Way};
use super::slot::{Node, Side};
use crate::paper::*;
use std::collections::BTreeMap;

/// Whether a node's links are those of its position and the entry count.
pub fn is_sound(node: &Node, entries: u32) -> bool {
    let is_link_to = |link: Link, position: u64| {
        if position <= u64::from(entries) {
            link.height == 1 && u64::from(link.key) == position
        } else {
            link.height == 0
        }
    };
    let position = u64::from(node.key);
    is_link_to(node.left, 2 * position) && is_link_to(node.right, 2 * position + 1)
}

pub fn step(run: &Run, ticket: Ticket) -> Result<Done, Way> {
    match ticket.kind {
        ADD => add(run, ticket.value),
        _ => take(run),
    }
}

fn add(run: &Run, number: u64) -> Result<Done, Way> {
    if run.entries == capacity(run.size) {
        return Ok(unchanged(run, Answer::Refused(FULL), Branch::AddToFull));
    }
    let mut heap = Heap::before(run);
    let position = run.entries + 1;
    heap.need_path(position / 2)?;
    heap.append(position, run.draw(fetch_rounds(HEAP, run.size)), number);
    heap.rise(position);
    Ok(heap.done(Answer::Added))
}

fn take(run: &Run) -> Result<Done, Way> {
    if run.entries == 0 {
        return Ok(unchanged(run, Answer::Empty, Branch::TakeFromEmpty));
    }
    let mut heap = Heap::before(run);
    heap.need_path(run.entries)?;
    heap.meet_count();
    let smallest = heap.number(1);
    let number = heap.remove_last();
    if heap.entries > 0 {
        heap.set_number(1, number);
        heap.sink(1)?;
    }
    Ok(heap.done(Answer::Taken(smallest)))
}

fn unchanged(run: &Run, answer: Answer, branch: Branch) -> Done {
    Done {
        branches: vec![branch],
        ..Done::unchanged(run, answer)
    }
}

struct Heap<'a> {
    held: &'a [Held],
    entries: u32,
    root: Link,
    /// The nodes that the step has needed, by position.
    nodes: BTreeMap<u32, Node>,
    branches: Vec<Branch>,
}

impl<'a> Heap<'a> {
    fn before(run: &'a Run) -> Heap<'a> {
        Heap {
            held: &run.held,
            entries: run.entries,
            root: run.root,
            nodes: BTreeMap::new(),
            branches: vec![],
        }
    }

    fn done(self, answer: Answer) -> Done {
        Done {
            entries: self.entries,
            root: self.root,
            ahead: Ahead::NONE,
            nodes: self.nodes.into_values().collect(),
            answer,
            branches: self.branches,
        }
    }

    /// The path from the root to a position; that of position 0 is empty.
    fn need_path(&mut self, position: u32) -> Result<(), Way> {
        if position == 0 {
            return Ok(());
        }
        self.need_path(position / 2)?;
        self.need(position)
    }

    fn need(&mut self, position: u32) -> Result<(), Way> {
        let way = way_to(position);
        let Some(held) = self.held.iter().find(|held| held.way == way) else {
            return Err(way);
        };
        self.nodes.entry(position).or_insert(held.node);
        Ok(())
    }

    /// A new node, linked from its parent, or the root.
    fn append(&mut self, position: u32, tag: u16, number: u64) {
        *self.link_mut(position) = Link {
            height: 1,
            key: position,
            tag,
        };
        let node = Node {
            key: position,
            tag,
            value: number,
            left: Link::NONE,
            right: Link::NONE,
        };
        self.nodes.insert(position, node);
        self.entries = position;
    }

    /// Takes the last position out and returns its number.
    fn remove_last(&mut self) -> u64 {
        let last = self.entries;
        *self.link_mut(last) = Link::NONE;
        self.entries = last - 1;
        self.nodes.remove(&last).expect("needed").value
    }

    /// The number moves up while it is smaller than the parent's.
    fn rise(&mut self, from: u32) {
        let mut position = from;
        while position > 1 && self.number(position) < self.number(position / 2) {
            self.swap_numbers(position, position / 2);
            position /= 2;
        }
        self.meet_rise(from, position);
    }

    /// The number moves toward the smaller child while that one is smaller.
    fn sink(&mut self, from: u32) -> Result<(), Way> {
        let mut position = from;
        while let Some(child) = self.smaller_child(position)? {
            if self.number(child) >= self.number(position) {
                self.meet_stop(from, position, child);
                return Ok(());
            }
            self.meet_descent(child);
            self.swap_numbers(position, child);
            position = child;
        }
        if position != from {
            self.branches.push(Branch::TakeReachesBottom);
        }
        Ok(())
    }

    /// Of the children that there are, the one with the smaller number, the
    /// left one on equal. Both are needed before they are compared.
    fn smaller_child(&mut self, position: u32) -> Result<Option<u32>, Way> {
        let mut children = vec![2 * position, 2 * position + 1];
        children.retain(|&child| child <= self.entries);
        for &child in &children {
            self.meet_child(child);
            self.need(child)?;
        }
        if children.len() == 1 {
            self.branches.push(Branch::OnlyLeftChild);
        }
        // Of equal ones, the first.
        Ok(children.into_iter().min_by_key(|&child| self.number(child)))
    }

    fn number(&self, position: u32) -> u64 {
        self.nodes[&position].value
    }

    fn set_number(&mut self, position: u32, number: u64) {
        self.nodes.get_mut(&position).expect("needed").value = number;
    }

    fn swap_numbers(&mut self, one: u32, other: u32) {
        let (a, b) = (self.number(one), self.number(other));
        self.set_number(one, b);
        self.set_number(other, a);
    }

    /// The link to a position: its parent's, or the root link.
    fn link_mut(&mut self, position: u32) -> &mut Link {
        if position == 1 {
            return &mut self.root;
        }
        let parent = self.nodes.get_mut(&(position / 2)).expect("needed");
        parent.link_mut(side_of(position))
    }

    // ---- what the step meets

    fn meet_rise(&mut self, from: u32, to: u32) {
        self.branches.push(match to {
            _ if from == 1 => Branch::AddToEmpty,
            _ if to == from => Branch::AddStaysBelow,
            1 => Branch::AddRisesToRoot,
            _ => Branch::AddRisesPart,
        });
        if to > 1 && self.number(to) == self.number(to / 2) {
            self.branches.push(Branch::AddStopsAtEqual);
        }
    }

    fn meet_count(&mut self) {
        self.branches.extend(match self.entries {
            1 => Some(Branch::TakeOfOne),
            2 => Some(Branch::TakeOfTwo),
            3 => Some(Branch::TakeOfThree),
            _ => None,
        });
    }

    fn meet_child(&mut self, child: u32) {
        self.branches.push(match self.nodes.contains_key(&child) {
            true => Branch::ChildHeld,
            false => Branch::ChildFetched,
        });
    }

    /// The number is about to move to this child.
    fn meet_descent(&mut self, child: u32) {
        self.branches.push(match side_of(child) {
            Side::Left => Branch::TakeSinksLeft,
            Side::Right => Branch::TakeSinksRight,
        });
        if child < self.entries
            && side_of(child) == Side::Left
            && self.number(child) == self.number(child + 1)
        {
            self.branches.push(Branch::EqualChildren);
        }
    }

    fn meet_stop(&mut self, from: u32, position: u32, child: u32) {
        self.branches.push(match position == from {
            true => Branch::TakeStaysAtOnce,
            false => Branch::TakeStopsHalfway,
        });
        if self.number(child) == self.number(position) {
            self.branches.push(Branch::TakeStopsAtEqual);
        }
    }
}

/// Left positions are even, right ones odd.
fn side_of(position: u32) -> Side {
    match position % 2 {
        0 => Side::Left,
        _ => Side::Right,
    }
}

fn way_to(position: u32) -> Way {
    if position == 1 {
        return Way::new();
    }
    let mut way = way_to(position / 2);
    way.push(side_of(position));
    way
}
