//! Random runs without damage against a plain table, a plain list, a plain
//! collection, a plain queue and the origin rule, with a whole-store check.

mod common;

use common::*;
use reference::fields;
use reference::origin::{Machine, Origin};
use reference::paper::*;
use std::collections::{BTreeMap, VecDeque};

/// The plain table, stack, heap and queue.
struct Model {
    size: u8,
    table: BTreeMap<u32, u64>,
    list: Vec<u64>,
    /// Numbers with repeats, ascending.
    collection: Vec<u64>,
    /// The oldest value first.
    queue: VecDeque<u64>,
}

impl Model {
    fn new(size: u8) -> Model {
        Model {
            size,
            table: BTreeMap::new(),
            list: vec![],
            collection: vec![],
            queue: VecDeque::new(),
        }
    }

    fn answer(&mut self, ticket: Ticket) -> Answer {
        let capacity = capacity(self.size) as usize;
        let Ticket { kind, key, value } = ticket;
        match kind {
            GET => self
                .table
                .get(&key)
                .map_or(Answer::Absent, |&value| Answer::Found(value)),
            PUT if self.table.len() == capacity && !self.table.contains_key(&key) => {
                Answer::Refused(FULL)
            }
            PUT => self
                .table
                .insert(key, value)
                .map_or(Answer::New, Answer::Replaced),
            REMOVE => self
                .table
                .remove(&key)
                .map_or(Answer::Absent, Answer::Removed),
            PUSH if self.list.len() == capacity => Answer::Refused(FULL),
            PUSH => {
                self.list.push(value);
                Answer::Pushed
            }
            POP => self.list.pop().map_or(Answer::Empty, Answer::Popped),
            ADD if self.collection.len() == capacity => Answer::Refused(FULL),
            ADD => {
                self.collection.push(value);
                self.collection.sort();
                Answer::Added
            }
            TAKE if self.collection.is_empty() => Answer::Empty,
            TAKE => Answer::Taken(self.collection.remove(0)),
            _ => self.queue_answer(ticket),
        }
    }

    fn queue_answer(&mut self, ticket: Ticket) -> Answer {
        let full = self.queue.len() == capacity(self.size) as usize;
        match ticket.kind {
            IN if full => Answer::Refused(FULL),
            IN => {
                self.queue.push_back(ticket.value);
                Answer::Queued
            }
            _ => self
                .queue
                .pop_front()
                .map_or(Answer::Empty, Answer::Dequeued),
        }
    }

    /// The values that a store has in key order; a heap's in any order.
    fn has_values(&self, structure: u8, mut values: Vec<u64>) -> bool {
        match structure {
            MAP => self.table.values().eq(&values),
            STACK => self.list == values,
            QUEUE => self.queue == values,
            _ => {
                values.sort();
                self.collection == values
            }
        }
    }
}

/// The leaves that the named origins stand for.
fn named_leaves(named: &[Origin], tapes: &[Vec<u16>], size: u8) -> Vec<u16> {
    named
        .iter()
        .map(|&(call, draw)| tapes[call - 1][draw] % (1 << size))
        .collect()
}

/// One run; returns how many calls closed the store (0 or 1).
fn run(random: &mut Random, structure: u8, size: u8, tape: Tape, calls: usize) -> usize {
    let mut pair = Pair::open(structure, size);
    let mut model = Model::new(size);
    let mut machine = Machine::new(structure, size);
    let mut tapes = vec![];
    let filling = 1 + random.below(4) as usize;
    for number in 0..calls {
        let ticket = match number % (calls / filling + 1) < calls / 8 {
            true => adding_ticket(random, structure, size),
            false => random_ticket(random, structure, size),
        };
        let length = tape_length(structure, size) + random.index(2);
        tapes.push(tape.numbers(random, length));
        if random.one_in(fields::STRAY) {
            // Neither the model nor the machine hears of it: it does not count.
            let stray = fields::stray_of(random, structure);
            let refused = Outcome::refused(STRAY_FIELD);
            assert_eq!(pair.call(stray, &tapes[number]), (refused, vec![]));
        }
        let (outcome, trace) = pair.call(ticket, &tapes[number]);
        let leaves = named_leaves(&machine.feed(ticket), &tapes, size);
        assert_eq!(trace, leaves[..trace.len()]);
        if outcome.answer == Answer::Refused(OVERFLOW) {
            return 1;
        }
        assert_eq!(outcome.answer, model.answer(ticket));
        if size < 6 || number % 16 == 0 {
            pair.audit();
        }
    }
    let values: Vec<u64> = pair.nodes().values().map(|node| node.value).collect();
    assert!(model.has_values(structure, values));
    0
}

fn runs(seed: u64, structure: u8, tape: Tape, times: usize) -> usize {
    let mut random = seeded(seed);
    let mut closed = 0;
    for size in 1..=GREATEST_SIZE {
        for _ in 0..times {
            closed += run(
                &mut random,
                structure,
                size,
                tape,
                60 + 3 * leaf_count(size),
            );
        }
    }
    closed
}

#[test]
fn uniform_maps() {
    assert_eq!(runs(11, MAP, Tape::Uniform, 6), 0);
}

#[test]
fn uniform_stacks() {
    assert_eq!(runs(12, STACK, Tape::Uniform, 40), 0);
}

#[test]
fn uniform_heaps() {
    assert_eq!(runs(25, HEAP, Tape::Uniform, 8), 0);
}

#[test]
fn uniform_queues() {
    assert_eq!(runs(35, QUEUE, Tape::Uniform, 40), 0);
}

#[test]
fn zero_maps() {
    assert!(runs(13, MAP, Tape::Zero, 4) > 0);
}

#[test]
fn zero_stacks() {
    assert!(runs(14, STACK, Tape::Zero, 20) > 0);
}

#[test]
fn zero_heaps() {
    assert!(runs(26, HEAP, Tape::Zero, 6) > 0);
}

#[test]
fn zero_queues() {
    assert!(runs(36, QUEUE, Tape::Zero, 20) > 0);
}

#[test]
fn few_leaf_maps() {
    assert!(runs(15, MAP, Tape::Few(2), 4) > 0);
    runs(16, MAP, Tape::Few(5), 2);
}

#[test]
fn few_leaf_stacks() {
    assert!(runs(17, STACK, Tape::Few(2), 20) > 0);
    runs(18, STACK, Tape::Few(5), 20);
}

#[test]
fn few_leaf_heaps() {
    assert!(runs(27, HEAP, Tape::Few(2), 6) > 0);
    runs(28, HEAP, Tape::Few(5), 4);
}

#[test]
fn few_leaf_queues() {
    assert!(runs(37, QUEUE, Tape::Few(2), 20) > 0);
    runs(38, QUEUE, Tape::Few(5), 20);
}

/// A full heap's add answers 10 and moves nothing but places.
#[test]
fn full_heaps() {
    let mut random = seeded(29);
    for size in 1..=6 {
        let mut pair = Pair::open(HEAP, size);
        let rounds = fetch_rounds(HEAP, size);
        for _ in 0..capacity(size) {
            let tape = Tape::Uniform.numbers(&mut random, 2 * rounds + 1);
            assert_eq!(pair.answer(add(random.below(9)), &tape), Answer::Added);
        }
        for _ in 0..20 {
            let before = pair.nodes();
            let mut tape = Tape::Uniform.numbers(&mut random, 2 * rounds + 1);
            let (outcome, trace) = pair.call(add(0), &tape);
            assert_eq!(outcome.answer, Answer::Refused(FULL));
            assert_eq!(pair.nodes(), before);
            tape.remove(rounds);
            let draws: Vec<u16> = tape.iter().map(|number| number % (1 << size)).collect();
            assert_eq!(trace, draws);
        }
    }
}

/// A full queue's in answers 10, moves nothing but places, and keeps the next
/// unused key and the tag drawn ahead.
#[test]
fn full_queues() {
    let mut random = seeded(39);
    for size in 1..=6 {
        let mut pair = Pair::open(QUEUE, size);
        for _ in 0..capacity(size) {
            let tape = Tape::Uniform.numbers(&mut random, 4);
            assert_eq!(pair.answer(queue_in(random.next()), &tape), Answer::Queued);
        }
        for _ in 0..20 {
            let before = (pair.nodes(), pair.plain.root, pair.plain.ahead);
            let tape = Tape::Uniform.numbers(&mut random, 4);
            let (outcome, trace) = pair.call(queue_in(0), &tape);
            assert_eq!(outcome.answer, Answer::Refused(FULL));
            assert_eq!((pair.nodes(), pair.plain.root, pair.plain.ahead), before);
            assert_eq!(trace, [tape[0], tape[3]].map(|number| number % (1 << size)));
        }
    }
}

/// A full map with the keys 0, 3, 6 and so on, each with its own value.
fn full_map(random: &mut Random, size: u8) -> Pair {
    let mut pair = Pair::open(MAP, size);
    let length = 2 * fetch_rounds(MAP, size) + 1;
    for key in (0..capacity(size)).map(|at| 3 * at) {
        let tape = Tape::Uniform.numbers(random, length);
        assert_eq!(pair.answer(put(key, key.into()), &tape), Answer::New);
    }
    pair
}

/// A full map's put of a present key leaves what a get of it leaves, but for
/// the value; one of an absent key answers 10 and leaves just that.
#[test]
fn full_maps() {
    let mut random = seeded(19);
    for size in 1..=6 {
        let mut pair = full_map(&mut random, size);
        for key in 0..3 * capacity(size) {
            let tape = Tape::Uniform.numbers(&mut random, 2 * fetch_rounds(MAP, size) + 1);
            let mut read = pair.clone();
            let (outcome, trace) = pair.call(put(key, 1000), &tape);
            let (found, same_trace) = read.call(get(key), &tape);
            assert_eq!(trace, same_trace);
            if key % 3 == 0 {
                assert_eq!(found.answer, Answer::Found(key.into()));
                assert_eq!(outcome.answer, Answer::Replaced(key.into()));
                assert_eq!(read.set_values(key, 1000), [key.into()]);
            } else {
                assert_eq!(found.answer, Answer::Absent);
                assert_eq!(outcome.answer, Answer::Refused(FULL));
            }
            assert!((&pair.plain, &pair.tree) == (&read.plain, &read.tree));
            assert_eq!(pair.plain.root.tag, tape[0] % (1 << size));
            pair.audit();
        }
    }
}
