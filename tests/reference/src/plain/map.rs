//! The map's step: a recursive walk over the held nodes. Where it lacks a
//! node it stops with the way to it, so the fetch rounds run it to learn what
//! to want next, and the last run of it is the step.

use super::branch::Branch;
use super::round::{Done, Held, Run, Way};
use super::slot::{Node, Side};
use crate::paper::*;

pub fn is_sound(node: &Node, link: Link) -> bool {
    node.balance().abs() <= 1 && node.height() == u32::from(link.height)
}

pub fn step(run: &Run, ticket: Ticket) -> Result<Done, Way> {
    let tag = run.draw(fetch_rounds(MAP, run.size));
    let mut walk = Walk {
        held: &run.held,
        ticket,
        tag,
        nodes: vec![],
        lifts: 0,
        answer: Answer::Absent,
    };
    let root = match ticket.kind {
        GET => walk.get(vec![], run.root)?,
        PUT => walk.put(vec![], run.root)?,
        _ => walk.remove(vec![], run.root)?,
    };
    let full = run.entries == capacity(run.size);
    let branches = match ticket.kind {
        PUT => walk.put_branches(run, full),
        _ => vec![],
    };
    if full && walk.answer == Answer::New {
        return Ok(Done {
            branches,
            ..Done::unchanged(run, Answer::Refused(FULL))
        });
    }
    let entries = match walk.answer {
        Answer::New => run.entries + 1,
        Answer::Removed(_) => run.entries - 1,
        _ => run.entries,
    };
    Ok(Done {
        entries,
        root,
        ahead: Ahead::NONE,
        nodes: walk.nodes,
        answer: walk.answer,
        branches,
    })
}

struct Walk<'a> {
    held: &'a [Held],
    ticket: Ticket,
    /// A new node's own tag.
    tag: u16,
    /// The nodes that the walk is done with.
    nodes: Vec<Node>,
    /// One for a single rotation, two for a double one.
    lifts: usize,
    answer: Answer,
}

impl Walk<'_> {
    fn get(&mut self, way: Way, link: Link) -> Result<Link, Way> {
        if link.height == 0 {
            return Ok(link);
        }
        let node = self.need(&way)?;
        if node.key == self.ticket.key {
            self.answer = Answer::Found(node.value);
        } else {
            let side = self.side(&node);
            self.get(then(&way, side), node.link(side))?;
        }
        Ok(self.keep(node))
    }

    fn put(&mut self, way: Way, link: Link) -> Result<Link, Way> {
        if link.height == 0 {
            return Ok(self.add_leaf_node());
        }
        let mut node = self.need(&way)?;
        if node.key == self.ticket.key {
            self.answer = Answer::Replaced(node.value);
            node.value = self.ticket.value;
            return Ok(self.keep(node));
        }
        let side = self.side(&node);
        *node.link_mut(side) = self.put(then(&way, side), node.link(side))?;
        self.rebalance(way, node)
    }

    fn add_leaf_node(&mut self) -> Link {
        self.answer = Answer::New;
        self.keep(Node {
            key: self.ticket.key,
            tag: self.tag,
            value: self.ticket.value,
            left: Link::NONE,
            right: Link::NONE,
        })
    }

    fn remove(&mut self, way: Way, link: Link) -> Result<Link, Way> {
        if link.height == 0 {
            return Ok(link);
        }
        let mut node = self.need(&way)?;
        if node.key == self.ticket.key {
            self.answer = Answer::Removed(node.value);
            return self.close_gap(way, node);
        }
        let side = self.side(&node);
        *node.link_mut(side) = self.remove(then(&way, side), node.link(side))?;
        self.rebalance(way, node)
    }

    /// The link to what stands in the removed node's place.
    fn close_gap(&mut self, way: Way, removed: Node) -> Result<Link, Way> {
        if removed.left.height == 0 {
            return Ok(removed.right);
        }
        if removed.right.height == 0 {
            return Ok(removed.left);
        }
        let (mut next, right) = self.take_least(then(&way, Side::Right))?;
        next.left = removed.left;
        next.right = right;
        self.rebalance(way, next)
    }

    /// The least node below, and the link to the rest.
    fn take_least(&mut self, way: Way) -> Result<(Node, Link), Way> {
        let mut node = self.need(&way)?;
        if node.left.height == 0 {
            return Ok((node, node.right));
        }
        let (least, left) = self.take_least(then(&way, Side::Left))?;
        node.left = left;
        Ok((least, self.rebalance(way, node)?))
    }

    fn rebalance(&mut self, way: Way, node: Node) -> Result<Link, Way> {
        match node.balance() {
            2 => self.rotate(way, node, Side::Left),
            -2 => self.rotate(way, node, Side::Right),
            _ => Ok(self.keep(node)),
        }
    }

    /// Brings the taller child up, or that child's inner child.
    fn rotate(&mut self, way: Way, node: Node, tall: Side) -> Result<Link, Way> {
        let inner = tall.other();
        let way = then(&way, tall);
        let child = self.child(&way, node.link(tall))?;
        if child.link(tall).height >= child.link(inner).height {
            return Ok(self.lift(node, child, tall));
        }
        let grandchild = self.child(&then(&way, inner), child.link(inner))?;
        let mut node = node;
        *node.link_mut(tall) = self.lift(child, grandchild, inner);
        let grandchild = self.take_kept(grandchild.key);
        Ok(self.lift(node, grandchild, tall))
    }

    /// A single rotation: the child on that side comes up over its parent.
    fn lift(&mut self, mut parent: Node, mut child: Node, side: Side) -> Link {
        self.lifts += 1;
        *parent.link_mut(side) = child.link(side.other());
        *child.link_mut(side.other()) = self.keep(parent);
        self.keep(child)
    }

    /// A child for a rotation. A put's taller side is the one it walked; a
    /// remove's is the other, where nothing is fetched yet.
    fn child(&mut self, way: &Way, link: Link) -> Result<Node, Way> {
        if self.ticket.kind == PUT {
            Ok(self.take_kept(link.key))
        } else {
            self.need(way)
        }
    }

    fn side(&self, node: &Node) -> Side {
        if self.ticket.key < node.key {
            Side::Left
        } else {
            Side::Right
        }
    }

    fn need(&self, way: &Way) -> Result<Node, Way> {
        let held = self.held.iter().find(|held| held.way == *way);
        held.map(|held| held.node).ok_or_else(|| way.clone())
    }

    fn keep(&mut self, node: Node) -> Link {
        self.nodes.push(node);
        node.link_here()
    }

    fn take_kept(&mut self, key: u32) -> Node {
        let at = self
            .nodes
            .iter()
            .position(|node| node.key == key)
            .expect("kept");
        self.nodes.remove(at)
    }

    /// What a put has met. It rotates at most once.
    fn put_branches(&self, run: &Run, full: bool) -> Vec<Branch> {
        match (self.answer, full) {
            (Answer::New, true) => vec![Branch::PutRefused],
            (Answer::New, false) => vec![match self.lifts {
                0 => Branch::PutNew,
                1 => Branch::PutNewSingle,
                _ => Branch::PutNewDouble,
            }],
            (_, true) => full_replace_branches(run),
            (_, false) => vec![Branch::PutReplaces],
        }
    }
}

/// The last of the held nodes has the key.
fn full_replace_branches(run: &Run) -> Vec<Branch> {
    let place = match run.held.len() {
        1 => Branch::FullReplacesRoot,
        _ => Branch::FullReplacesBelow,
    };
    let mut branches = vec![Branch::FullReplaces, place];
    if run.size == 1 {
        branches.push(Branch::FullReplacesInSizeOne);
    }
    branches
}

fn then(way: &Way, side: Side) -> Way {
    let mut longer = way.clone();
    longer.push(side);
    longer
}
