//! The origin rule: a machine with no buckets, waiting list or tape. Where a
//! tag would stand it has an origin.

use crate::paper::*;
use std::collections::BTreeMap;

/// A call's number, from 1, and a draw's.
pub type Origin = (usize, usize);

#[derive(Clone, Copy, Debug, PartialEq, Eq)]
struct OriginLink {
    height: u8,
    key: u32,
    origin: Origin,
}

const NO_LINK: OriginLink = OriginLink {
    height: 0,
    key: 0,
    origin: (0, 0),
};

#[derive(Clone, Copy, Debug)]
struct OriginNode {
    key: u32,
    origin: Origin,
    value: u64,
    left: OriginLink,
    right: OriginLink,
}

pub struct Machine {
    structure: u8,
    size: u8,
    entries: u32,
    root: OriginLink,
    /// Of a queue: the next unused key, and the origin of the tag drawn ahead.
    next_key: u32,
    ahead: Origin,
    nodes: BTreeMap<u32, OriginNode>,
    calls: usize,
    /// Of the call under way: the origins named, and the keys that need no
    /// fetch any more, a new node's among them.
    named: Vec<Origin>,
    fetched: Vec<u32>,
}

impl Machine {
    pub fn new(structure: u8, size: u8) -> Machine {
        Machine {
            structure,
            size,
            entries: 0,
            root: NO_LINK,
            next_key: 0,
            ahead: (0, 0),
            nodes: BTreeMap::new(),
            calls: 0,
            named: vec![],
            fetched: vec![],
        }
    }

    /// Feeds the ticket of the next call that counts; names its 2F draws.
    pub fn feed(&mut self, ticket: Ticket) -> Vec<Origin> {
        self.calls += 1;
        self.named.clear();
        self.fetched.clear();
        let full = self.is_full();
        match ticket.kind {
            GET => self.root = self.get(self.root, ticket.key),
            PUT => self.root = self.put(self.root, ticket),
            REMOVE => self.root = self.remove(self.root, ticket.key),
            PUSH if !full => self.push(ticket.value),
            POP if self.entries > 0 => self.pop(),
            ADD if !full => self.add_number(ticket.value),
            TAKE if self.entries > 0 => self.take_smallest(),
            IN if !full => self.enqueue(ticket.value),
            OUT if self.entries > 0 => self.dequeue(),
            _ => {}
        }
        self.name_own_draws();
        self.named.clone()
    }

    fn is_full(&self) -> bool {
        self.entries == capacity(self.size)
    }

    fn rounds(&self) -> usize {
        fetch_rounds(self.structure, self.size)
    }

    fn name_own_draws(&mut self) {
        let rounds = self.rounds();
        let fetches = self.named.len()..rounds;
        let first = first_put_draw(self.structure, self.size);
        let puts = first..first + rounds;
        self.named
            .extend(fetches.chain(puts).map(|draw| (self.calls, draw)));
    }

    /// The node that the link leads to, fetched if it was not in this call.
    fn fetch(&mut self, link: &mut OriginLink) -> OriginNode {
        let node = self.nodes.get_mut(&link.key).expect("linked nodes exist");
        if !self.fetched.contains(&link.key) {
            let own = (self.calls, self.named.len());
            self.named.push(link.origin);
            self.fetched.push(link.key);
            link.origin = own;
            node.origin = own;
        }
        *node
    }

    fn store(&mut self, node: OriginNode) -> OriginLink {
        self.nodes.insert(node.key, node);
        let height = 1 + node.left.height.max(node.right.height);
        OriginLink {
            height,
            key: node.key,
            origin: node.origin,
        }
    }

    /// A new node, and the link to it.
    fn add(&mut self, key: u32, value: u64, left: OriginLink) -> OriginLink {
        let origin = (self.calls, self.rounds());
        self.nodes.insert(
            key,
            OriginNode {
                key,
                origin,
                value,
                left,
                right: NO_LINK,
            },
        );
        self.fetched.push(key);
        self.entries += 1;
        OriginLink {
            height: 1,
            key,
            origin,
        }
    }

    fn push(&mut self, value: u64) {
        self.root = self.add(self.entries + 1, value, self.root);
    }

    fn pop(&mut self) {
        let mut root = self.root;
        let top = self.fetch(&mut root);
        self.nodes.remove(&top.key);
        self.entries -= 1;
        self.root = top.left;
    }

    fn enqueue(&mut self, value: u64) {
        if self.entries == 0 {
            self.ahead = (self.calls, 1);
            self.root = self.link_ahead();
        }
        let (key, origin) = (self.next_key, self.ahead);
        self.next_key += 1;
        self.ahead = (self.calls, 2);
        let node = OriginNode {
            key,
            origin,
            value,
            left: self.link_ahead(),
            right: NO_LINK,
        };
        self.nodes.insert(key, node);
        self.entries += 1;
    }

    fn dequeue(&mut self) {
        let mut root = self.root;
        let oldest = self.fetch(&mut root);
        self.nodes.remove(&oldest.key);
        self.entries -= 1;
        self.root = match self.entries {
            0 => NO_LINK,
            _ => oldest.left,
        };
    }

    /// The link to a queue's next node.
    fn link_ahead(&self) -> OriginLink {
        OriginLink {
            height: 1,
            key: self.next_key,
            origin: self.ahead,
        }
    }

    fn add_number(&mut self, value: u64) {
        let mut position = self.entries + 1;
        self.fetch_path(position / 2);
        *self.link_to(position) = self.add(position, value, NO_LINK);
        while position > 1 && self.number(position) < self.number(position / 2) {
            self.swap_numbers(position, position / 2);
            position /= 2;
        }
    }

    fn take_smallest(&mut self) {
        let last = self.entries;
        self.fetch_path(last);
        self.swap_numbers(1, last);
        *self.link_to(last) = NO_LINK;
        self.nodes.remove(&last);
        self.entries -= 1;
        let mut position = 1;
        loop {
            let there = |child: &u32| *child <= self.entries;
            let left = Some(2 * position).filter(there);
            let right = Some(2 * position + 1).filter(there);
            for child in left.into_iter().chain(right) {
                self.fetch_position(child);
            }
            let child = match (left, right) {
                (Some(left), Some(right)) if self.number(right) < self.number(left) => right,
                (Some(left), _) => left,
                _ => return,
            };
            if self.number(position) <= self.number(child) {
                return;
            }
            self.swap_numbers(position, child);
            position = child;
        }
    }

    /// The heap's positions from the root down to this one; none for 0.
    fn fetch_path(&mut self, position: u32) {
        for shift in (0..u32::BITS - position.leading_zeros()).rev() {
            self.fetch_position(position >> shift);
        }
    }

    fn fetch_position(&mut self, position: u32) {
        let mut link = *self.link_to(position);
        self.fetch(&mut link);
        *self.link_to(position) = link;
    }

    /// The link to a position of the heap: its parent's, or the root link.
    fn link_to(&mut self, position: u32) -> &mut OriginLink {
        match (self.nodes.get_mut(&(position / 2)), position % 2) {
            (None, _) => &mut self.root,
            (Some(parent), 0) => &mut parent.left,
            (Some(parent), _) => &mut parent.right,
        }
    }

    fn number(&self, position: u32) -> u64 {
        self.nodes[&position].value
    }

    fn swap_numbers(&mut self, one: u32, other: u32) {
        let (a, b) = (self.number(one), self.number(other));
        self.nodes.get_mut(&one).expect("a position").value = b;
        self.nodes.get_mut(&other).expect("a position").value = a;
    }

    fn get(&mut self, mut link: OriginLink, key: u32) -> OriginLink {
        if link.height == 0 {
            return link;
        }
        let mut node = self.fetch(&mut link);
        if key < node.key {
            node.left = self.get(node.left, key);
        } else if key > node.key {
            node.right = self.get(node.right, key);
        }
        self.store(node)
    }

    fn put(&mut self, mut link: OriginLink, ticket: Ticket) -> OriginLink {
        if link.height == 0 {
            return match self.is_full() {
                true => link,
                false => self.add(ticket.key, ticket.value, NO_LINK),
            };
        }
        let mut node = self.fetch(&mut link);
        if ticket.key < node.key {
            node.left = self.put(node.left, ticket);
        } else if ticket.key > node.key {
            node.right = self.put(node.right, ticket);
        } else {
            node.value = ticket.value;
        }
        self.rebalance(node)
    }

    fn remove(&mut self, mut link: OriginLink, key: u32) -> OriginLink {
        if link.height == 0 {
            return link;
        }
        let mut node = self.fetch(&mut link);
        if key < node.key {
            node.left = self.remove(node.left, key);
        } else if key > node.key {
            node.right = self.remove(node.right, key);
        } else {
            return self.take_out(node);
        }
        self.rebalance(node)
    }

    fn take_out(&mut self, node: OriginNode) -> OriginLink {
        self.nodes.remove(&node.key);
        self.entries -= 1;
        if node.left.height == 0 {
            return node.right;
        }
        if node.right.height == 0 {
            return node.left;
        }
        let (right, next) = self.take_least(node.right);
        self.rebalance(OriginNode {
            left: node.left,
            right,
            ..next
        })
    }

    fn take_least(&mut self, mut link: OriginLink) -> (OriginLink, OriginNode) {
        let mut node = self.fetch(&mut link);
        if node.left.height == 0 {
            return (node.right, node);
        }
        let (left, least) = self.take_least(node.left);
        node.left = left;
        (self.rebalance(node), least)
    }

    fn rebalance(&mut self, node: OriginNode) -> OriginLink {
        match i16::from(node.left.height) - i16::from(node.right.height) {
            2 => self.lower_right(node),
            -2 => self.lower_left(node),
            _ => self.store(node),
        }
    }

    /// The left side is too tall.
    fn lower_right(&mut self, mut node: OriginNode) -> OriginLink {
        let mut child = self.fetch(&mut node.left);
        if child.left.height < child.right.height {
            let mut inner = self.fetch(&mut child.right);
            child.right = inner.left;
            inner.left = self.store(child);
            child = inner;
        }
        node.left = child.right;
        child.right = self.store(node);
        self.store(child)
    }

    /// The right side is too tall.
    fn lower_left(&mut self, mut node: OriginNode) -> OriginLink {
        let mut child = self.fetch(&mut node.right);
        if child.right.height < child.left.height {
            let mut inner = self.fetch(&mut child.left);
            child.left = inner.right;
            inner.right = self.store(child);
            child = inner;
        }
        node.right = child.left;
        child.left = self.store(node);
        self.store(child)
    }
}
