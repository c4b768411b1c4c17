//! What the tests share: a generator, both stores side by side, and stores put
//! together by hand.
#![allow(dead_code)]

use reference::paper::*;
use reference::plain::{self, write_slot, Node, Reading};
pub use reference::random::Random;
use reference::walk::{self, Program};
use reference::{fast, listing, Store};
use std::collections::BTreeMap;

/// A generator; the environment's SEED moves every run.
pub fn seeded(seed: u64) -> Random {
    let moved = std::env::var("SEED").map_or(0, |text| text.parse().expect("a number"));
    println!("seed {seed}, SEED {moved}");
    Random::new(seed ^ moved << 32)
}

/// What a program prints for an input, over both builds.
pub fn output(program: Program, input: &[u8]) -> String {
    let (mut plain, mut fast) = (vec![], vec![]);
    walk::run::<plain::State>(program, input, &mut plain).unwrap();
    walk::run::<fast::State>(program, input, &mut fast).unwrap();
    let [plain, fast] = [plain, fast].map(|text| String::from_utf8(text).unwrap());
    assert_eq!(plain, fast);
    plain
}

/// Whence the tape's numbers come.
#[derive(Clone, Copy, Debug)]
pub enum Tape {
    Zero,
    Uniform,
    /// This many different leaves.
    Few(u64),
}

impl Tape {
    pub fn numbers(self, random: &mut Random, length: usize) -> Vec<u16> {
        (0..length)
            .map(|_| match self {
                Tape::Zero => 0,
                Tape::Uniform => random.next() as u16,
                Tape::Few(leaves) => 0x4040 + 13 * random.below(leaves) as u16,
            })
            .collect()
    }
}

/// `plain` and `fast` on the same calls; every call compares all they leave.
#[derive(Clone)]
pub struct Pair {
    pub plain: plain::State,
    pub fast: fast::State,
    pub tree: Vec<u8>,
}

impl Pair {
    pub fn open(structure: u8, size: u8) -> Pair {
        Pair::open_over(structure, size, vec![0xa5; tree_bytes(size)])
    }

    pub fn open_over(structure: u8, size: u8, tree: Vec<u8>) -> Pair {
        let (mut plain_tree, mut fast_tree) = (tree.clone(), tree);
        let plain = plain::open(structure, size, &mut plain_tree);
        let fast = fast::open(structure, size, &mut fast_tree);
        assert_eq!(plain, fast.to_plain());
        assert!(plain_tree == fast_tree);
        Pair {
            plain,
            fast,
            tree: plain_tree,
        }
    }

    pub fn of(state: plain::State, tree: Vec<u8>) -> Pair {
        let fast = fast::State::from_plain(&state);
        Pair {
            plain: state,
            fast,
            tree,
        }
    }

    /// Changes the state by hand.
    pub fn edit(&mut self, change: impl FnOnce(&mut plain::State, &mut Vec<u8>)) {
        change(&mut self.plain, &mut self.tree);
        self.fast = fast::State::from_plain(&self.plain);
        assert_eq!(self.plain, self.fast.to_plain());
    }

    /// A call with a good ticket and a trace buffer of just 2F.
    pub fn call(&mut self, ticket: Ticket, tape: &[u16]) -> (Outcome, Vec<u16>) {
        let mut trace = vec![0x7777; 2 * fetch_rounds(self.plain.structure, self.plain.size)];
        let outcome = self.call_with(&ticket.bytes(), tape, &mut trace);
        trace.truncate(outcome.leaves);
        (outcome, trace)
    }

    pub fn answer(&mut self, ticket: Ticket, tape: &[u16]) -> Answer {
        self.call(ticket, tape).0.answer
    }

    pub fn call_with(&mut self, ticket: &[u8], tape: &[u16], trace: &mut [u16]) -> Outcome {
        let before = (self.plain.clone(), self.tree.clone(), trace.to_vec());
        let mut fast_tree = self.tree.clone();
        let mut fast_trace = trace.to_vec();
        let outcome = plain::call(&mut self.plain, &mut self.tree, ticket, tape, trace);
        let again = fast::call(
            &mut self.fast,
            &mut fast_tree,
            ticket,
            tape,
            &mut fast_trace,
        );
        assert_eq!(outcome, again);
        let state = self.fast.to_plain();
        if self.plain != state {
            assert_eq!(
                listing::state_lines(&self.plain),
                listing::state_lines(&state)
            );
            panic!("unused places differ");
        }
        assert!(self.tree == fast_tree);
        assert_eq!(trace, fast_trace);
        self.check_what_is_left(outcome, before, trace);
        outcome
    }

    fn check_what_is_left(
        &self,
        outcome: Outcome,
        before: (plain::State, Vec<u8>, Vec<u16>),
        trace: &[u16],
    ) {
        assert!(trace[outcome.leaves..] == before.2[outcome.leaves..]);
        match outcome.answer {
            Answer::Refused(cause @ (1..=7 | 17 | 19)) => {
                assert_eq!((outcome.leaves, outcome.peak), (0, 0), "{cause}");
                assert!(
                    (&self.plain, &self.tree) == (&before.0, &before.1),
                    "{cause}"
                );
            }
            Answer::Refused(cause @ (8 | 9)) => assert_eq!(self.plain.mark, cause),
            _ => {
                let rounds = fetch_rounds(self.plain.structure, self.plain.size);
                assert_eq!(outcome.leaves, 2 * rounds);
                assert_eq!(self.plain.mark, 0);
            }
        }
        if outcome.leaves > 0 {
            self.check_peak(outcome);
        }
    }

    /// The peak against the number that is left waiting: that of the last close,
    /// unless damage was found first of all, or right after the step.
    fn check_peak(&self, outcome: Outcome) {
        let rounds = fetch_rounds(self.plain.structure, self.plain.size);
        let after_step = outcome.leaves == rounds + 1;
        match outcome.answer {
            Answer::Refused(DAMAGE) if outcome.leaves == 1 => assert_eq!(outcome.peak, 0),
            Answer::Refused(DAMAGE) if after_step => assert!(outcome.peak <= WAITING_LIMIT),
            Answer::Refused(OVERFLOW) => {
                assert_eq!((outcome.peak, self.plain.count), (65, 65));
            }
            _ => assert!((self.plain.count..=WAITING_LIMIT).contains(&outcome.peak)),
        }
    }

    /// Every node in the tree or waiting, by key. None may be there twice.
    pub fn nodes(&self) -> BTreeMap<u32, Node> {
        let mut nodes = self.plain.waiting();
        for (_, reading) in listing::used_slots(&self.tree, self.plain.size) {
            let Reading::Node(node) = reading else {
                panic!("bad slot")
            };
            nodes.push(node);
        }
        let count = nodes.len();
        let by_key: BTreeMap<u32, Node> = nodes.into_iter().map(|node| (node.key, node)).collect();
        assert_eq!(by_key.len(), count);
        by_key
    }

    /// Changes by hand the value of each node with this key, in the tree or
    /// waiting. Returns the old values.
    pub fn set_values(&mut self, key: u32, value: u64) -> Vec<u64> {
        let mut old = vec![];
        self.edit(|state, tree| {
            let places = state.places.iter_mut().map(|place| &mut place[..]);
            for slot in places.chain(tree.chunks_mut(SLOT_BYTES)) {
                if slot[0] == 1 && slot[4..8] == key.to_le_bytes() {
                    old.push(u64::from_le_bytes(slot[24..].try_into().unwrap()));
                    slot[24..].copy_from_slice(&value.to_le_bytes());
                }
            }
        });
        old
    }

    /// Whole-store check of a store that met no damage.
    pub fn audit(&self) {
        assert!(self.plain.is_fit() && self.fast.is_fit());
        let nodes = self.nodes();
        assert_eq!(nodes.len(), self.plain.entries as usize);
        for bucket in self.tree.chunks(BUCKET_BYTES) {
            let keys: Vec<u32> = bucket
                .chunks(SLOT_BYTES)
                .take_while(|slot| slot[0] == 1)
                .map(|slot| u32::from_le_bytes(slot[4..8].try_into().unwrap()))
                .collect();
            assert!(keys.windows(2).all(|pair| pair[0] < pair[1]));
            assert!(bucket[SLOT_BYTES * keys.len()..]
                .iter()
                .all(|&byte| byte == 0));
        }
        match self.plain.structure {
            MAP => assert_eq!(
                audit_subtree(&nodes, self.plain.root, -1, 1 << 32),
                nodes.len()
            ),
            STACK => audit_stack(&nodes, self.plain.root),
            HEAP => audit_heap(&nodes, self.plain.root),
            _ => audit_queue(&nodes, self.plain.root, self.plain.ahead),
        }
    }
}

fn audit_subtree(nodes: &BTreeMap<u32, Node>, link: Link, low: i64, high: i64) -> usize {
    if link.height == 0 {
        assert_eq!(link, Link::NONE);
        return 0;
    }
    let node = nodes[&link.key];
    let key = i64::from(node.key);
    assert!(low < key && key < high);
    assert_eq!(node.link_here(), link);
    assert!(node.balance().abs() <= 1);
    1 + audit_subtree(nodes, node.left, low, key) + audit_subtree(nodes, node.right, key, high)
}

fn audit_stack(nodes: &BTreeMap<u32, Node>, mut link: Link) {
    for key in (1..=nodes.len() as u32).rev() {
        let node = nodes[&key];
        assert_eq!(
            link,
            Link {
                height: 1,
                key,
                tag: node.tag
            }
        );
        assert_eq!(node.right, Link::NONE);
        link = node.left;
    }
    assert_eq!(link, Link::NONE);
}

fn audit_heap(nodes: &BTreeMap<u32, Node>, root: Link) {
    let link_to = |key: u32| {
        nodes.get(&key).map_or(Link::NONE, |node| Link {
            height: 1,
            key,
            tag: node.tag,
        })
    };
    assert!(nodes.keys().copied().eq(1..=nodes.len() as u32));
    assert_eq!(root, link_to(1));
    for (&position, node) in nodes {
        assert_eq!(node.left, link_to(2 * position));
        assert_eq!(node.right, link_to(2 * position + 1));
        assert!(position == 1 || nodes[&(position / 2)].value <= node.value);
    }
}

/// The keys run up to the next unused one, and the newest one's left link is the
/// link to the next node.
fn audit_queue(nodes: &BTreeMap<u32, Node>, mut link: Link, ahead: Ahead) {
    if nodes.is_empty() {
        assert_eq!((link, ahead.tag), (Link::NONE, 0));
        return;
    }
    for key in ahead.key - nodes.len() as u32..ahead.key {
        let node = nodes[&key];
        assert_eq!(link, self::link(1, key, node.tag));
        assert_eq!(node.right, Link::NONE);
        link = node.left;
    }
    assert_eq!(link, ahead.link());
}

pub fn link(height: u8, key: u32, tag: u16) -> Link {
    Link { height, key, tag }
}

pub fn node(key: u32, tag: u16, left: Link, right: Link) -> Node {
    Node {
        key,
        tag,
        value: u64::from(key) * 10,
        left,
        right,
    }
}

pub fn leaf_node(key: u32, tag: u16) -> Node {
    node(key, tag, Link::NONE, Link::NONE)
}

/// Writes a node into a slot of a bucket.
pub fn place(tree: &mut [u8], bucket: usize, slot: usize, node: Node) {
    let start = BUCKET_BYTES * (bucket - 1) + SLOT_BYTES * slot;
    tree[start..start + SLOT_BYTES].copy_from_slice(&write_slot(&node));
}

/// A store with this root and entries, and nodes as (bucket, slot, node).
pub fn store(
    structure: u8,
    size: u8,
    entries: u32,
    root: Link,
    nodes: &[(usize, usize, Node)],
) -> Pair {
    let mut pair = Pair::open(structure, size);
    pair.edit(|state, tree| {
        state.entries = entries;
        state.root = root;
        for &(bucket, slot, node) in nodes {
            place(tree, bucket, slot, node);
        }
    });
    pair
}

pub fn used_nodes(pair: &Pair) -> Vec<(usize, Node)> {
    listing::used_slots(&pair.tree, pair.plain.size)
        .into_iter()
        .map(|(offset, reading)| match reading {
            Reading::Node(node) => (offset, node),
            _ => panic!("bad slot at {offset}"),
        })
        .collect()
}

/// Moves the keys of a queue's nodes, so that this is the next unused one.
pub fn move_keys(pair: &mut Pair, next: u32) {
    let by = next.wrapping_sub(pair.plain.ahead.key);
    let moved = |key: &mut [u8]| {
        let old = u32::from_le_bytes(key.try_into().unwrap());
        key.copy_from_slice(&old.wrapping_add(by).to_le_bytes());
    };
    pair.edit(|state, tree| {
        let places = state.places.iter_mut().map(|place| &mut place[..]);
        for slot in places.chain(tree.chunks_mut(SLOT_BYTES)) {
            if slot[0] == 1 {
                moved(&mut slot[4..8]);
                moved(&mut slot[8..12]);
            }
        }
        state.ahead.key = next;
        if state.entries > 0 {
            state.root.key = state.root.key.wrapping_add(by);
        }
    });
}

pub fn get(key: u32) -> Ticket {
    Ticket::new(GET, key, 0)
}

pub fn put(key: u32, value: u64) -> Ticket {
    Ticket::new(PUT, key, value)
}

pub fn remove(key: u32) -> Ticket {
    Ticket::new(REMOVE, key, 0)
}

pub fn push(value: u64) -> Ticket {
    Ticket::new(PUSH, 0, value)
}

pub fn pop() -> Ticket {
    Ticket::new(POP, 0, 0)
}

pub fn add(value: u64) -> Ticket {
    Ticket::new(ADD, 0, value)
}

pub fn take() -> Ticket {
    Ticket::new(TAKE, 0, 0)
}

pub fn queue_in(value: u64) -> Ticket {
    Ticket::new(IN, 0, value)
}

pub fn queue_out() -> Ticket {
    Ticket::new(OUT, 0, 0)
}

/// The kind that adds an entry.
pub fn adding_kind(structure: u8) -> u8 {
    [PUT, PUSH, ADD, IN][usize::from(structure) - 1]
}

/// A random call of the structure, with no stray field.
pub fn random_ticket(random: &mut Random, structure: u8, size: u8) -> Ticket {
    let kind = match structure {
        MAP => [GET, PUT, PUT, PUT, REMOVE][random.index(5)],
        STACK => [PUSH, PUSH, PUSH, POP, POP][random.index(5)],
        HEAP => [ADD, ADD, ADD, TAKE, TAKE][random.index(5)],
        _ => [IN, IN, IN, OUT, OUT][random.index(5)],
    };
    ticket_of(random, kind, size)
}

/// A random call that adds an entry.
pub fn adding_ticket(random: &mut Random, structure: u8, size: u8) -> Ticket {
    ticket_of(random, adding_kind(structure), size)
}

/// Keys lie somewhat beyond the capacity, and half of the values are small, so
/// that equal ones meet.
fn ticket_of(random: &mut Random, kind: u8, size: u8) -> Ticket {
    let spread = u64::from(capacity(size)) * 3 / 2 + 1;
    let key = match random.below(40) {
        0 => u32::MAX - random.below(2) as u32,
        _ => random.below(spread) as u32,
    };
    let bound = [8, u64::MAX][random.index(2)];
    Ticket::new(kind, key, random.below(bound)).cleaned()
}
