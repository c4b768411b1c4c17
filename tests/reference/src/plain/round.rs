//! Rounds over the tree and the waiting nodes.

use super::slot::{passes, path, read_slot, write_slot, Node, Reading, Side};
use super::{heap, map, queue, stack, Branch, State};
use crate::paper::*;

/// The turns from the root to a node, as the store stood before the step.
pub type Way = Vec<Side>;

/// A fetched node, out of the tree and of the waiting nodes until the step.
#[derive(Clone, Debug)]
pub struct Held {
    pub way: Way,
    pub node: Node,
}

/// What the step leaves.
pub struct Done {
    pub entries: u32,
    pub root: Link,
    pub ahead: Ahead,
    /// The held nodes as changed, a new one among them, a removed one not.
    pub nodes: Vec<Node>,
    pub answer: Answer,
    /// Of a put, a heap and a queue alone.
    pub branches: Vec<Branch>,
}

impl Done {
    /// A step that changes nothing; the held nodes wait again.
    pub fn unchanged(run: &Run, answer: Answer) -> Done {
        Done {
            entries: run.entries,
            root: run.root,
            ahead: run.ahead,
            nodes: run.held.iter().map(|held| held.node).collect(),
            answer,
            branches: vec![],
        }
    }
}

/// A call under way.
pub struct Run<'a> {
    pub structure: u8,
    pub size: u8,
    pub entries: u32,
    pub root: Link,
    pub ahead: Ahead,
    pub waiting: Vec<Node>,
    pub held: Vec<Held>,
    pub tree: &'a mut [u8],
    pub tape: &'a [u16],
    pub trace: &'a mut [u16],
    pub leaves: usize,
    pub met: Met,
}

/// What a call meets, for its peak and for the random runs to count.
#[derive(Default)]
pub struct Met {
    /// How many nodes waited before the first round.
    pub waiting: usize,
    /// The number waiting and held at each round's close.
    pub closes: Vec<usize>,
    /// Of the step of a put, a heap or a queue; and the damage that was found.
    pub branches: Vec<Branch>,
}

impl Met {
    /// The largest number at a close.
    pub fn peak(&self) -> usize {
        self.closes.iter().copied().max().unwrap_or(0)
    }
}

impl Run<'_> {
    /// All rounds of a call with its step; the error is 8 or 9.
    pub fn rounds(&mut self, ticket: Ticket) -> Result<Answer, u8> {
        let rounds = fetch_rounds(self.structure, self.size);
        for round in 0..rounds {
            let want = self.step(ticket).err();
            self.fetch_round(round, want)?;
        }
        let done = self
            .step(ticket)
            .unwrap_or_else(|_| panic!("F fetch rounds are enough"));
        self.entries = done.entries;
        self.root = done.root;
        self.ahead = done.ahead;
        self.met.branches = done.branches;
        self.held.clear();
        self.wait(done.nodes);
        let first = first_put_draw(self.structure, self.size);
        for round in 0..rounds {
            self.put_round(first + round)?;
        }
        Ok(done.answer)
    }

    /// The step over the held nodes, or the way to the first node it lacks.
    fn step(&self, ticket: Ticket) -> Result<Done, Way> {
        match self.structure {
            MAP => map::step(self, ticket),
            STACK => stack::step(self, ticket),
            HEAP => heap::step(self, ticket),
            _ => queue::step(self, ticket),
        }
    }

    fn fetch_round(&mut self, round: usize, want: Option<Way>) -> Result<(), u8> {
        let draw = self.draw(round);
        let Some(way) = want else {
            return self.idle_round(draw);
        };
        let link = self.link(&way);
        self.reveal(link.tag);
        let mut pool = self.read_path(link.tag)?;
        let at = pool
            .iter()
            .position(|node| node.key == link.key)
            .ok_or_else(|| self.damage(Branch::WantedMissing))?;
        let mut node = pool.remove(at);
        if node.tag != link.tag {
            return Err(self.damage(Branch::WantedTag));
        }
        if !self.wanted_is_sound(&way, link, &node) {
            return Err(self.damage(Branch::WantedUnsound(self.structure)));
        }
        node.tag = draw;
        self.link_mut(&way).tag = draw;
        self.held.push(Held { way, node });
        self.write_path(link.tag, pool);
        self.close_round()
    }

    fn put_round(&mut self, draw: usize) -> Result<(), u8> {
        self.idle_round(self.draw(draw))
    }

    /// A round that wants no node.
    fn idle_round(&mut self, leaf: u16) -> Result<(), u8> {
        self.reveal(leaf);
        let pool = self.read_path(leaf)?;
        self.write_path(leaf, pool);
        self.close_round()
    }

    pub fn draw(&self, position: usize) -> u16 {
        (usize::from(self.tape[position]) % leaf_count(self.size)) as u16
    }

    fn reveal(&mut self, leaf: u16) {
        self.trace[self.leaves] = leaf;
        self.leaves += 1;
    }

    /// The path's nodes together with those waiting, in key order.
    fn read_path(&mut self, leaf: u16) -> Result<Vec<Node>, u8> {
        let mut pool = self.waiting.clone();
        for bucket in path(leaf, self.size) {
            for slot in self.tree[bucket_bytes(bucket)].chunks(SLOT_BYTES) {
                match read_slot(slot, self.size, Some(bucket)) {
                    Reading::Node(node) => pool.push(node),
                    Reading::Empty => {}
                    Reading::Bad => return Err(self.damage(Branch::BadSlot)),
                }
            }
        }
        pool.sort_by_key(|node| node.key);
        let mut keys: Vec<u32> = pool.iter().map(|node| node.key).collect();
        keys.extend(self.held.iter().map(|held| held.node.key));
        keys.sort();
        if keys.windows(2).any(|pair| pair[0] == pair[1]) {
            return Err(self.damage(Branch::KeyTwice));
        }
        Ok(pool)
    }

    /// The tests of its structure.
    fn wanted_is_sound(&self, way: &[Side], link: Link, node: &Node) -> bool {
        match self.structure {
            MAP => map::is_sound(node, link) && self.is_between(way, node.key),
            STACK => stack::is_sound(node),
            HEAP => heap::is_sound(node, self.entries),
            _ => queue::is_sound(node),
        }
    }

    fn damage(&mut self, found: Branch) -> u8 {
        self.met.branches.push(found);
        DAMAGE
    }

    /// Whether the key lies strictly between the keys passed on the way.
    fn is_between(&self, way: &[Side], key: u32) -> bool {
        (0..way.len()).all(|depth| {
            let passed = self.held_at(&way[..depth]).key;
            match way[depth] {
                Side::Left => key < passed,
                Side::Right => passed < key,
            }
        })
    }

    fn held_at(&self, way: &[Side]) -> &Node {
        &self
            .held
            .iter()
            .find(|held| held.way == way)
            .expect("passed nodes are held")
            .node
    }

    fn link(&self, way: &[Side]) -> Link {
        match way.split_last() {
            None => self.root,
            Some((side, above)) => self.held_at(above).link(*side),
        }
    }

    fn link_mut(&mut self, way: &[Side]) -> &mut Link {
        match way.split_last() {
            None => &mut self.root,
            Some((side, above)) => {
                let held = self.held.iter_mut().find(|held| held.way == above);
                held.expect("passed nodes are held").node.link_mut(*side)
            }
        }
    }

    /// Leaf bucket first, each takes the lowest keys that may lie in it.
    fn write_path(&mut self, leaf: u16, mut pool: Vec<Node>) {
        for bucket in path(leaf, self.size) {
            let bytes = &mut self.tree[bucket_bytes(bucket)];
            bytes.fill(0);
            for slot in bytes.chunks_mut(SLOT_BYTES) {
                let fits = |node: &Node| passes(node.tag, self.size, bucket);
                if let Some(at) = pool.iter().position(fits) {
                    slot.copy_from_slice(&write_slot(&pool.remove(at)));
                }
            }
        }
        self.waiting = pool;
    }

    /// A round that overflows closes too.
    fn close_round(&mut self) -> Result<(), u8> {
        let number = self.waiting.len() + self.held.len();
        self.met.closes.push(number);
        if number <= WAITING_LIMIT {
            Ok(())
        } else {
            Err(OVERFLOW)
        }
    }

    /// Ends the call; the held nodes join those waiting.
    pub fn leave_in(&mut self, state: &mut State) {
        let held = self.held.iter().map(|held| held.node).collect();
        self.wait(held);
        state.entries = self.entries;
        state.root = self.root;
        state.ahead = self.ahead;
        state.set_waiting(&self.waiting);
    }

    /// More nodes wait; one whose key waits already stands second.
    fn wait(&mut self, nodes: Vec<Node>) {
        self.waiting.extend(nodes);
        self.waiting.sort_by_key(|node| node.key);
    }
}

fn bucket_bytes(bucket: usize) -> std::ops::Range<usize> {
    let start = BUCKET_BYTES * (bucket - 1);
    start..start + BUCKET_BYTES
}
