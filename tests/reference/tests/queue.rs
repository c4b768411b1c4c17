//! The queue by hand, on `plain` and `fast` together: worked calls, origins,
//! cause 17, and what damage and overflow leave.

mod common;

use common::*;
use reference::inputs::call_bytes;
use reference::listing;
use reference::origin::Machine;
use reference::paper::*;
use reference::plain::{self, Branch, Node};
use reference::walk::Program;

/// Entries, root link, next unused key and tag drawn ahead.
fn kept(pair: &Pair) -> (u32, Link, u32, u16) {
    let Ahead { key, tag } = pair.plain.ahead;
    (pair.plain.entries, pair.plain.root, key, tag)
}

/// A queue's node; the next has the next key and this tag.
fn queued(key: u32, tag: u16, next_tag: u16) -> Node {
    node(key, tag, link(1, key + 1, next_tag), Link::NONE)
}

/// Size 2, these entries, and leaf 0 for each node; value i is 10 i.
fn queue_of(entries: u64) -> Pair {
    let mut pair = Pair::open(QUEUE, 2);
    for value in 0..entries {
        assert_eq!(pair.answer(queue_in(10 * value), &[0; 4]), Answer::Queued);
    }
    pair
}

// ---- worked calls

/// Draw 1 is the first node's tag; the second has the tag that the first in drew
/// ahead, and that its link carries. Keys count on; a draw is a remainder.
#[test]
fn in_in_out_out_out_in() {
    use Answer::*;
    let mut pair = Pair::open(QUEUE, 2);
    let (zero, one, two) = (queued(0, 2, 3), queued(1, 3, 2), queued(2, 2, 3));
    let (enter, leave) = (queue_in, queue_out());
    let mut step = |ticket, tape: [u16; 4], answer, leaves: [u16; 2], left, nodes: &[_]| {
        let (outcome, trace) = pair.call(ticket, &tape);
        assert_eq!((outcome.answer, trace), (answer, leaves.to_vec()));
        assert_eq!((kept(&pair), used_nodes(&pair)), (left, nodes.to_vec()));
        pair.audit();
    };
    let left = (1, link(1, 0, 2), 1, 3);
    step(enter(0), [1, 2, 3, 0], Queued, [1, 0], left, &[(0, zero)]);
    let (left, both) = ((2, link(1, 0, 2), 2, 2), [(0, zero), (32, one)]);
    step(enter(10), [0, 1, 2, 1], Queued, [0, 1], left, &both);
    let left = (1, link(1, 1, 3), 2, 2);
    step(
        leave,
        [3, 0, 0, 2],
        Dequeued(0),
        [2, 2],
        left,
        &[(256, one)],
    );
    let emptied = (0, Link::NONE, 2, 0);
    step(leave, [1, 0, 0, 3], Dequeued(10), [3, 3], emptied, &[]);
    step(leave, [1, 0, 0, 2], Empty, [1, 2], emptied, &[]);
    let left = (1, link(1, 2, 2), 3, 3);
    step(
        enter(20),
        [65533, 6, 7, 4],
        Queued,
        [1, 0],
        left,
        &[(0, two)],
    );
}

/// A full queue's in keeps the tag drawn ahead: the next node has it.
#[test]
fn full_queues_of_size_1_and_2() {
    for size in [1, 2] {
        let mut pair = Pair::open(QUEUE, size);
        let count = capacity(size);
        for value in 0..u64::from(count) {
            assert_eq!(pair.answer(queue_in(value), &[0, 0, 1, 0]), Answer::Queued);
        }
        assert_eq!(kept(&pair), (count, link(1, 0, 0), count, 1));
        for _ in 0..3 {
            let (outcome, trace) = pair.call(queue_in(9), &[1, 0, 0, 0]);
            assert_eq!((outcome.answer, trace), (Answer::Refused(10), vec![1, 0]));
            assert_eq!(kept(&pair), (count, link(1, 0, 0), count, 1));
        }
        assert_eq!(pair.answer(queue_out(), &[1, 0, 0, 0]), Answer::Dequeued(0));
        assert_eq!(pair.answer(queue_in(8), &[1, 0, 0, 0]), Answer::Queued);
        let tag = u16::from(size == 2);
        assert_eq!(
            pair.nodes()[&count],
            Node {
                value: 8,
                ..queued(count, tag, 0)
            }
        );
        pair.audit();
    }
}

/// As for the stack, the path of leaf 0 has room for 36.
#[test]
fn queue_of_size_8_overflows() {
    let mut pair = Pair::open(QUEUE, 8);
    for value in 1..=100 {
        let (outcome, _) = pair.call(queue_in(value), &[0; 4]);
        let beyond = (value as usize).saturating_sub(36);
        assert_eq!((outcome.answer, outcome.peak), (Answer::Queued, beyond));
        assert_eq!(pair.plain.count, beyond);
    }
    let (outcome, trace) = pair.call(queue_in(101), &[0, 1, 2, 0]);
    assert_eq!((outcome.answer, trace), (Answer::Refused(9), vec![0, 0]));
    assert_eq!(outcome.peak, 65);
    assert_eq!(kept(&pair), (101, link(1, 0, 0), 101, 2));
    assert_eq!((pair.plain.mark, pair.plain.count), (9, 65));
    let newest = Node {
        value: 101,
        ..queued(100, 0, 2)
    };
    assert_eq!(pair.plain.waiting().last(), Some(&newest));
    assert_eq!(pair.answer(queue_out(), &[0; 4]), Answer::Refused(1));
}

#[test]
fn origins_of_a_queue() {
    let mut machine = Machine::new(QUEUE, 2);
    let mut call = 0;
    let mut fetched = |ticket| {
        call += 1;
        let named = machine.feed(ticket);
        assert_eq!((named.len(), named[1]), (2, (call, 3)));
        named[0]
    };
    let (enter, leave) = (queue_in(5), queue_out());
    assert_eq!(fetched(leave), (1, 0));
    assert_eq!(fetched(enter), (2, 0));
    assert_eq!(fetched(enter), (3, 0));
    assert_eq!(fetched(leave), (2, 1));
    // Drawn ahead by the in before its own.
    assert_eq!(fetched(leave), (2, 2));
    assert_eq!(fetched(leave), (6, 0));
    // What call 3 drew ahead is dropped.
    assert_eq!(fetched(enter), (7, 0));
    assert_eq!(fetched(enter), (8, 0));
    assert_eq!(fetched(enter), (9, 0));
    // Full: what call 9 drew ahead is kept.
    assert_eq!(fetched(enter), (10, 0));
    assert_eq!(fetched(leave), (7, 1));
    assert_eq!(fetched(leave), (7, 2));
    assert_eq!(fetched(enter), (13, 0));
    assert_eq!(fetched(leave), (8, 2));
    assert_eq!(fetched(leave), (9, 2));
    assert_eq!(fetched(leave), (16, 0));
}

#[test]
fn branches_of_a_queue() {
    use Branch::*;
    let Pair {
        mut plain,
        mut tree,
        ..
    } = Pair::open(QUEUE, 2);
    let mut met = |ticket: Ticket| {
        let ticket = ticket.bytes();
        plain::call_and_met(&mut plain, &mut tree, &ticket, &[0; 4], &mut [0; 2])
            .1
            .branches
    };
    let (enter, leave) = (queue_in(5), queue_out());
    for (ticket, branch) in [
        (leave, OutOfFresh),
        (enter, InToFresh),
        (enter, InBehindOthers),
        (enter, InBehindOthers),
        (enter, InToFull),
        (leave, OutBeforeOthers),
        (leave, OutBeforeOthers),
        (leave, OutOfLast),
        (leave, OutOfEmptied),
        (enter, InAfterEmptied),
    ] {
        assert_eq!(met(ticket), [branch]);
    }
}

/// A call has a ticket and four numbers.
#[test]
fn walk_program_of_a_queue() {
    let input = [
        vec![QUEUE, 2],
        call_bytes(queue_in(50), &[1, 2, 3, 0]),
        call_bytes(get(1), &[0; 4]),
        call_bytes(queue_out(), &[0, 1, 1, 3]),
    ]
    .concat();
    let lines = ["queued 0 1 0\n", "refused 5\n", "dequeued 50 2 3\n"];
    for length in 2..=input.len() {
        let whole = (length - 2) / 21;
        let short = ["short\n", ""][usize::from((length - 2) % 21 == 0)];
        let expected = lines[..whole].concat() + short;
        assert_eq!(output(Program::Walk, &input[..length]), expected);
    }
}

// ---- cause 17

/// On an empty, a half-full and a full queue, whatever tape and trace it brings.
#[test]
fn keys_used_up() {
    for entries in 0..=3 {
        let mut pair = queue_of(entries);
        move_keys(&mut pair, u32::MAX);
        for numbers in [0, 1, 3, 4, 9] {
            for places in [0, 1, 2, 5] {
                let (tape, mut trace) = (vec![1; numbers], vec![9; places]);
                let outcome = pair.call_with(&queue_in(7).bytes(), &tape, &mut trace);
                assert_eq!(outcome, Outcome::refused(17));
            }
        }
    }
}

/// An out meets no 17, and gives no key back.
#[test]
fn outs_with_the_keys_used_up() {
    for entries in 0..=3 {
        let mut pair = queue_of(entries);
        move_keys(&mut pair, u32::MAX);
        let mut refused = |numbers: usize, places: usize| {
            let (tape, mut trace) = (vec![1; numbers], vec![9; places]);
            pair.call_with(&queue_out().bytes(), &tape, &mut trace)
        };
        assert_eq!(refused(3, 2), Outcome::refused(6));
        assert_eq!(refused(4, 1), Outcome::refused(7));
        for value in 0..entries {
            let answer = pair.answer(queue_out(), &[0; 4]);
            assert_eq!(answer, Answer::Dequeued(10 * value));
            pair.audit();
        }
        assert_eq!(pair.answer(queue_out(), &[0; 4]), Answer::Empty);
        assert_eq!(kept(&pair), (0, Link::NONE, u32::MAX, 0));
        assert_eq!(pair.answer(queue_in(7), &[0; 4]), Answer::Refused(17));
    }
}

/// The greatest key but one is given out, and is the last.
#[test]
fn the_last_key() {
    for entries in 0..=2 {
        let mut pair = queue_of(entries);
        move_keys(&mut pair, u32::MAX - 1);
        assert_eq!(pair.answer(queue_in(7), &[0, 0, 3, 0]), Answer::Queued);
        assert_eq!(pair.plain.ahead.key, u32::MAX);
        let newest = Node {
            value: 7,
            ..queued(u32::MAX - 1, 0, 3)
        };
        assert_eq!(pair.nodes()[&(u32::MAX - 1)], newest);
        pair.audit();
        assert_eq!(pair.answer(queue_in(8), &[0; 4]), Answer::Refused(17));
        for value in 0..entries {
            let answer = pair.answer(queue_out(), &[0; 4]);
            assert_eq!(answer, Answer::Dequeued(10 * value));
        }
        assert_eq!(pair.answer(queue_out(), &[0; 4]), Answer::Dequeued(7));
        assert_eq!(kept(&pair), (0, Link::NONE, u32::MAX, 0));
    }
    // A full queue's in gives no key out.
    let mut pair = queue_of(3);
    move_keys(&mut pair, u32::MAX - 1);
    assert_eq!(pair.answer(queue_in(7), &[0; 4]), Answer::Refused(10));
    assert_eq!(pair.plain.ahead.key, u32::MAX - 1);
}

// ---- damage and overflow

/// A queue of size 2 with these nodes, all with tag 0, in leaf bucket 4.
fn queue_with(nodes: &[Node], ahead: Ahead) -> Pair {
    let entries = nodes.len() as u32;
    let placed: Vec<_> = (0..)
        .zip(nodes)
        .map(|(slot, &node)| (4, slot, node))
        .collect();
    let mut pair = store(QUEUE, 2, entries, link(1, nodes[0].key, 0), &placed);
    pair.edit(|state, _| state.ahead = ahead);
    pair
}

fn is_good(oldest: Node) -> bool {
    let key = oldest.key + 1;
    let mut pair = queue_with(&[oldest], Ahead { key, tag: 0 });
    let (outcome, trace) = pair.call(queue_out(), &[1, 0, 0, 2]);
    match outcome.answer {
        Answer::Dequeued(value) => value == oldest.value,
        answer => {
            assert_eq!((answer, trace), (Answer::Refused(8), vec![0]));
            false
        }
    }
}

#[test]
fn the_oldest_node() {
    let none = Link::NONE;
    for key in [0, 5, u32::MAX - 1] {
        assert!(is_good(queued(key, 0, 3)));
        for wrong in [key, key.wrapping_add(2), key.wrapping_sub(1), !key] {
            assert!(!is_good(node(key, 0, link(1, wrong, 3), none)));
        }
        for height in [2, 3, 255] {
            assert!(!is_good(node(key, 0, link(height, key + 1, 3), none)));
        }
        assert!(!is_good(node(key, 0, none, none)));
        assert!(!is_good(node(key, 0, none, link(1, key + 1, 3))));
        for right in [link(1, key + 1, 3), link(1, 0, 0), link(255, key, 1)] {
            assert!(!is_good(node(key, 0, link(1, key + 1, 3), right)));
        }
    }
    // Another tag than the link's, and another key.
    assert!(!is_good(queued(5, 1, 3)));
    let mut pair = queue_with(&[queued(5, 0, 3)], Ahead { key: 6, tag: 3 });
    pair.edit(|state, _| (state.root.key, state.ahead.key) = (6, 7));
    assert_eq!(pair.answer(queue_out(), &[0; 4]), Answer::Refused(8));
}

/// An in goes by the state; what the newest's link carries shows two outs later.
#[test]
fn the_states_tag_drawn_ahead_counts() {
    let mut pair = queue_with(&[queued(0, 0, 2)], Ahead { key: 1, tag: 3 });
    assert_eq!(pair.answer(queue_in(7), &[0, 1, 1, 0]), Answer::Queued);
    assert_eq!(
        pair.nodes()[&1],
        Node {
            value: 7,
            ..queued(1, 3, 1)
        }
    );
    assert_eq!(pair.answer(queue_out(), &[0; 4]), Answer::Dequeued(0));
    assert_eq!(kept(&pair), (1, link(1, 1, 2), 2, 1));
    let (outcome, trace) = pair.call(queue_out(), &[0; 4]);
    assert_eq!((outcome.answer, trace), (Answer::Refused(8), vec![2]));
    assert_eq!(kept(&pair), (1, link(1, 1, 2), 2, 1));
}

/// Damage in a fetch round: nothing but the mark is new.
#[test]
fn damage_in_a_fetch_round() {
    let oldest = node(4, 0, link(1, 5, 1), link(1, 5, 1));
    let nodes = [oldest, queued(5, 0, 2)];
    for (ticket, bad_slot) in [
        (queue_out(), false),
        (queue_out(), true),
        (queue_in(9), true),
    ] {
        let mut pair = queue_with(&nodes, Ahead { key: 6, tag: 2 });
        pair.edit(|_, tree| tree[128 * 3 + 96] = u8::from(bad_slot) * 2);
        let before = pair.clone();
        let (outcome, trace) = pair.call(ticket, &[0, 3, 3, 1]);
        assert_eq!((outcome.answer, trace), (Answer::Refused(8), vec![0]));
        assert_eq!(outcome.peak, 0);
        let left = plain::State {
            mark: 8,
            ..before.plain
        };
        assert!((&pair.plain, &pair.tree) == (&left, &before.tree));
    }
}

/// Damage in the put round, which has leaf 3: the step stands.
fn damaged_after(mut pair: Pair, ticket: Ticket, draws: [u16; 3]) -> Pair {
    pair.edit(|_, tree| tree[128 * 6] = 3);
    let [fetch, own, ahead] = draws;
    let fetched = ticket.kind == OUT && pair.plain.entries > 0;
    let (outcome, trace) = pair.call(ticket, &[fetch, own, ahead, 3]);
    assert_eq!((outcome.answer, trace), (Answer::Refused(8), vec![0, 3]));
    assert_eq!(outcome.peak, usize::from(fetched));
    assert_eq!(pair.plain.mark, 8);
    pair
}

#[test]
fn damage_in_the_put_round_of_an_in() {
    let pair = damaged_after(Pair::open(QUEUE, 2), queue_in(0), [0, 2, 1]);
    assert_eq!(kept(&pair), (1, link(1, 0, 2), 1, 1));
    assert_eq!(pair.plain.waiting(), [queued(0, 2, 1)]);

    let one = queue_with(&[queued(4, 0, 3)], Ahead { key: 5, tag: 3 });
    let pair = damaged_after(one, queue_in(50), [0, 2, 1]);
    assert_eq!(kept(&pair), (2, link(1, 4, 0), 6, 1));
    assert_eq!(pair.plain.waiting(), [queued(5, 3, 1)]);

    let pair = damaged_after(queue_of(3), queue_in(50), [0, 2, 1]);
    assert_eq!(kept(&pair), (3, link(1, 0, 0), 3, 0));
    assert_eq!(pair.plain.count, 0);
}

#[test]
fn damage_in_the_put_round_of_an_out() {
    let one = queue_with(&[queued(4, 0, 3)], Ahead { key: 5, tag: 3 });
    let pair = damaged_after(one, queue_out(), [1, 2, 1]);
    assert_eq!(kept(&pair), (0, Link::NONE, 5, 0));
    assert_eq!(pair.plain.count, 0);

    let nodes = [queued(4, 0, 0), queued(5, 0, 2)];
    let pair = damaged_after(
        queue_with(&nodes, Ahead { key: 6, tag: 2 }),
        queue_out(),
        [1, 2, 1],
    );
    assert_eq!(kept(&pair), (1, link(1, 5, 0), 6, 2));
    assert_eq!(pair.plain.count, 0);

    let pair = damaged_after(Pair::open(QUEUE, 2), queue_out(), [0, 2, 1]);
    assert_eq!(kept(&pair), (0, Link::NONE, 0, 0));
}

/// The root bucket is full with nodes that go nowhere else on the path, and 64
/// wait; to take the oldest out of its leaf bucket makes one too many.
#[test]
fn overflow_in_a_fetch_round() {
    let strays = |from: u32, count: u32| (from..from + count).map(|key| leaf_node(key, 255));
    let run = |waiting: u32| {
        let mut pair = store(QUEUE, 8, 1, link(1, 7, 0), &[(256, 0, queued(7, 0, 5))]);
        pair.edit(|state, tree| {
            state.ahead = Ahead { key: 8, tag: 5 };
            for (slot, stray) in strays(500, 4).enumerate() {
                place(tree, 1, slot, stray);
            }
            state.set_waiting(&strays(100, waiting).collect::<Vec<_>>());
        });
        let (outcome, trace) = pair.call(queue_out(), &[9, 20, 30, 1]);
        (pair, (outcome.answer, outcome.peak), trace)
    };
    let (pair, answer, trace) = run(63);
    assert_eq!((answer, trace), ((Answer::Dequeued(70), 64), vec![0, 1]));
    assert_eq!(kept(&pair), (0, Link::NONE, 8, 0));
    let (pair, answer, trace) = run(64);
    assert_eq!((answer, trace), ((Answer::Refused(9), 65), vec![0]));
    assert_eq!(kept(&pair), (1, link(1, 7, 9), 8, 5));
    assert_eq!((pair.plain.mark, pair.plain.count), (9, 65));
    assert_eq!(pair.plain.waiting()[0], queued(7, 9, 5));
}

/// 60 nodes with leaf 0 leave 24 waiting, and a stray one has the next key: the
/// node that joins them stands second.
#[test]
fn new_node_whose_key_waits() {
    let mut pair = Pair::open(QUEUE, 8);
    for value in 0..60 {
        pair.answer(queue_in(value), &[0; 4]);
    }
    let mut waiting = pair.plain.waiting();
    assert_eq!(waiting.len(), 24);
    let (stray, above) = (leaf_node(60, 0), leaf_node(70, 0));
    waiting.extend([stray, above]);
    pair.edit(|state, _| state.set_waiting(&waiting));
    let (outcome, trace) = pair.call(queue_in(600), &[0; 4]);
    assert_eq!((outcome.answer, trace), (Answer::Refused(8), vec![0, 0]));
    assert_eq!(kept(&pair), (61, link(1, 0, 0), 61, 0));
    assert_eq!(pair.plain.waiting()[24..], [stray, queued(60, 0, 0), above]);
}

/// A listing tells a queue's fields.
#[test]
fn state_lines_of_a_queue() {
    let pair = queue_with(&[queued(4, 0, 3)], Ahead { key: 5, tag: 3 });
    let line = "mark 0, structure 4, size 2, entries 1, root (height 1, key 4, tag 0), \
                waiting 0, next key 5, tag drawn ahead 3";
    assert_eq!(listing::state_lines(&pair.plain), [line]);
}
