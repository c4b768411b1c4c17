//! The paper's worked calls, on `plain` and `fast` together.

mod common;

use common::*;
use reference::inputs::call_bytes;
use reference::origin::Machine;
use reference::paper::*;
use reference::plain::{self, path, read_slot, Branch, Node, Reading};
use reference::walk::Program;
use reference::{fast, listing};
use std::collections::BTreeSet;
use std::io::Write;
use std::process::{Command, Stdio};

fn zero_tape(structure: u8, size: u8) -> Vec<u16> {
    vec![0; tape_length(structure, size)]
}

fn root_after(size: u8, tickets: &[Ticket]) -> (Pair, u32) {
    let mut pair = Pair::open(MAP, size);
    for ticket in tickets {
        let answer = pair.answer(*ticket, &zero_tape(MAP, size));
        assert!(matches!(answer, Answer::New | Answer::Removed(_)));
    }
    pair.audit();
    let root = pair.plain.root.key;
    (pair, root)
}

#[test]
fn path_of_leaf_2_in_size_2() {
    assert_eq!(path(2, 2), [6, 3, 1]);
    let shifted = [0, 1, 2].map(|level| fast::path_bucket(2, 2, level));
    assert_eq!(shifted, [6, 3, 1]);
}

#[test]
fn greatest_heights_follow_from_least_balanced_trees() {
    for size in 1..=8 {
        let entries = u64::from(capacity(size));
        let height = (0..20)
            .filter(|&height| least_entries(height) <= entries)
            .max()
            .unwrap();
        assert_eq!(GREATEST_HEIGHT[usize::from(size) - 1], usize::from(height));
    }
}

/// The entry counts of balanced trees, built height by height.
#[test]
fn possible_heights_follow_from_building_balanced_trees() {
    let mut counts: Vec<BTreeSet<u32>> = vec![BTreeSet::from([0]), BTreeSet::from([1])];
    for height in 2..=14 {
        let lower: BTreeSet<u32> = counts[height - 1]
            .union(&counts[height - 2])
            .copied()
            .collect();
        let sums = counts[height - 1]
            .iter()
            .flat_map(|a| lower.iter().map(move |b| 1 + a + b));
        counts.push(sums.filter(|&sum| sum <= 255).collect());
    }
    for (height, counts) in counts.iter().enumerate() {
        for entries in 0..=255 {
            let possible = counts.contains(&entries);
            assert_eq!(
                height_possible(height as u8, entries),
                possible,
                "{height} {entries}"
            );
        }
    }
}

#[test]
fn push_then_pop() {
    let mut pair = Pair::open(STACK, 2);
    let (outcome, trace) = pair.call(push(50), &[1, 2, 3]);
    assert_eq!((outcome.peak, trace), (0, vec![1, 3]));
    assert_eq!(pair.plain.count, 0);
    let node = Node {
        key: 1,
        tag: 2,
        value: 50,
        left: Link::NONE,
        right: Link::NONE,
    };
    assert_eq!(
        listing::used_slots(&pair.tree, 2),
        [(256, Reading::Node(node))]
    );
    let (outcome, trace) = pair.call(pop(), &[0, 1, 1]);
    assert_eq!((outcome.answer, trace), (Answer::Popped(50), vec![2, 1]));
    assert_eq!(outcome.peak, 1);
}

#[test]
fn origins_of_pop_and_of_push() {
    let mut machine = Machine::new(STACK, 2);
    assert_eq!(machine.feed(push(50)), [(1, 0), (1, 2)]);
    assert_eq!(machine.feed(pop())[0], (1, 1));

    let mut machine = Machine::new(STACK, 2);
    machine.feed(push(50));
    assert_eq!(machine.feed(push(60))[0], (2, 0));
    let mut pair = Pair::open(STACK, 2);
    pair.call(push(50), &[1, 2, 3]);
    assert_eq!(pair.call(push(60), &[0, 1, 1]).1, [0, 1]);
}

#[test]
fn get_in_a_fresh_map() {
    let tape: Vec<u16> = (0..=12).collect();
    let mut pair = Pair::open(MAP, 2);
    let mut short_trace = [9; 11];
    let ticket = get(7).bytes();
    assert_eq!(
        pair.call_with(&ticket, &tape[..12], &mut [9; 12]),
        Outcome::refused(6)
    );
    assert_eq!(
        pair.call_with(&ticket, &tape, &mut short_trace),
        Outcome::refused(7)
    );
    let (outcome, trace) = pair.call(get(7), &tape);
    assert_eq!(outcome.answer, Answer::Absent);
    assert_eq!(trace, [0, 1, 2, 3, 0, 1, 3, 0, 1, 2, 3, 0]);
}

#[test]
fn roots_after_rotations() {
    assert_eq!(root_after(2, &[put(1, 0), put(2, 0), put(3, 0)]).1, 2);
    let five = [
        put(2, 0),
        put(1, 0),
        put(4, 0),
        put(3, 0),
        put(5, 0),
        remove(1),
    ];
    assert_eq!(root_after(3, &five).1, 4);
    let (pair, root) = root_after(2, &[put(2, 0), put(1, 0), put(3, 0), remove(2)]);
    assert_eq!(
        (
            root,
            pair.nodes()[&3].left.key,
            pair.nodes()[&3].left.height
        ),
        (3, 1, 1)
    );
}

#[test]
fn full_map_of_size_1() {
    let mut pair = Pair::open(MAP, 1);
    let tape = zero_tape(MAP, 1);
    assert_eq!(pair.answer(put(9, 1), &tape), Answer::New);
    assert_eq!(pair.answer(put(9, 2), &tape), Answer::Replaced(1));
    assert_eq!(pair.answer(get(9), &tape), Answer::Found(2));
    assert_eq!(pair.answer(put(8, 3), &tape), Answer::Refused(10));
    assert_eq!(pair.answer(get(9), &tape), Answer::Found(2));
    assert_eq!(pair.answer(get(8), &tape), Answer::Absent);
    assert_eq!(pair.plain.entries, 1);
}

/// A full map of size 3, zero tape: root 4, then 2 and 6, then the leaf nodes.
/// Each key's value is the key.
fn seven() -> Pair {
    let keys = [4, 2, 6, 1, 3, 5, 7];
    root_after(3, &keys.map(|key| put(key, key.into()))).0
}

/// Every node of a full map in turn, and keys on every side of them.
#[test]
fn full_maps_of_size_2_and_3() {
    let three = root_after(2, &[put(2, 2), put(1, 1), put(3, 3)]).0;
    for mut pair in [three, seven()] {
        let size = pair.plain.size;
        let (tape, entries) = (zero_tape(MAP, size), capacity(size));
        for key in 1..=entries {
            let value = 100 + u64::from(key);
            assert_eq!(
                pair.answer(put(key, value), &tape),
                Answer::Replaced(key.into())
            );
            assert_eq!(pair.answer(get(key), &tape), Answer::Found(value));
        }
        for key in [0, entries + 1, u32::MAX] {
            assert_eq!(pair.answer(put(key, 9), &tape), Answer::Refused(10));
            assert_eq!(pair.answer(get(key), &tape), Answer::Absent);
        }
        pair.audit();
        assert_eq!(pair.plain.entries, entries);
        let values: Vec<u64> = pair.nodes().values().map(|node| node.value).collect();
        assert!(values.into_iter().eq(101..=100 + u64::from(entries)));
    }
}

/// 4, 2 and 3 are fetched and get the tags 1, 2 and 3; nothing else moves.
#[test]
fn leaves_and_tags_of_a_put_on_a_full_map() {
    let tape: Vec<u16> = (1..=25).collect();
    let fetches = [0, 0, 0, 4, 5, 6, 7, 0, 1, 2, 3, 4];
    let puts = [6, 7, 0, 1, 2, 3, 4, 5, 6, 7, 0, 1];
    let mut pair = seven();
    let (outcome, trace) = pair.call(put(3, 103), &tape);
    assert_eq!(outcome.answer, Answer::Replaced(3));
    assert_eq!(trace, [fetches, puts].concat());
    let link = |height, key, tag| Link { height, key, tag };
    assert_eq!((pair.plain.entries, pair.plain.root), (7, link(3, 4, 1)));
    let mut expected = seven().nodes();
    let mut change = |key, tag, left, right| {
        let node = expected.get_mut(&key).unwrap();
        (node.tag, node.left, node.right) = (tag, left, right);
    };
    change(4, 1, link(2, 2, 2), link(2, 6, 0));
    change(2, 2, link(1, 1, 0), link(1, 3, 3));
    change(3, 3, Link::NONE, Link::NONE);
    expected.get_mut(&3).unwrap().value = 103;
    assert_eq!(pair.nodes(), expected);
}

/// What a put of this key meets after puts of those.
fn put_branches(size: u8, keys: &[u32], key: u32) -> Vec<Branch> {
    let tickets: Vec<Ticket> = keys.iter().map(|&key| put(key, 1)).collect();
    let Pair {
        mut plain,
        mut tree,
        ..
    } = root_after(size, &tickets).0;
    let (ticket, tape) = (put(key, 2).bytes(), zero_tape(MAP, size));
    plain::call_and_met(&mut plain, &mut tree, &ticket, &tape, &mut [0; 24])
        .1
        .branches
}

#[test]
fn branches_of_puts() {
    use Branch::*;
    assert_eq!(put_branches(1, &[], 9), [PutNew]);
    assert_eq!(put_branches(1, &[9], 8), [PutRefused]);
    assert_eq!(
        put_branches(1, &[9], 9),
        [FullReplaces, FullReplacesRoot, FullReplacesInSizeOne]
    );
    assert_eq!(put_branches(2, &[1], 2), [PutNew]);
    assert_eq!(put_branches(2, &[1, 2], 3), [PutNewSingle]);
    assert_eq!(put_branches(2, &[3, 2], 1), [PutNewSingle]);
    assert_eq!(put_branches(2, &[1, 3], 2), [PutNewDouble]);
    assert_eq!(put_branches(2, &[3, 1], 2), [PutNewDouble]);
    for key in [1, 2] {
        assert_eq!(put_branches(2, &[1, 2], key), [PutReplaces]);
    }
    let full = |key| put_branches(2, &[2, 1, 3], key);
    assert_eq!(full(4), [PutRefused]);
    assert_eq!(full(2), [FullReplaces, FullReplacesRoot]);
    assert_eq!(full(1), [FullReplaces, FullReplacesBelow]);
    assert_eq!(full(3), [FullReplaces, FullReplacesBelow]);
}

/// What a call names of its own draws where F is 6, from that one on: all but
/// the spare one.
fn own(call: usize, from: usize) -> Vec<(usize, usize)> {
    let draws = (from..6).chain(7..13);
    draws.map(|draw| (call, draw)).collect()
}

/// A full map's put names what a get would, whether the key is there or not.
#[test]
fn origins_of_a_full_map() {
    let mut machine = Machine::new(MAP, 2);
    assert_eq!(machine.feed(put(2, 20)), own(1, 0));
    assert_eq!(machine.feed(put(1, 10)), [vec![(1, 6)], own(2, 1)].concat());
    assert_eq!(machine.feed(put(3, 30)), [vec![(2, 0)], own(3, 1)].concat());
    let named = |first, second, call| [vec![first, second], own(call, 2)].concat();
    assert_eq!(machine.feed(put(1, 11)), named((3, 0), (2, 6), 4));
    assert_eq!(machine.feed(put(4, 40)), named((4, 0), (3, 6), 5));
    assert_eq!(machine.feed(put(0, 5)), named((5, 0), (4, 1), 6));
    assert_eq!(machine.feed(put(3, 31)), named((6, 0), (5, 1), 7));
    assert_eq!(machine.feed(put(2, 21)), [vec![(7, 0)], own(8, 1)].concat());
    // Neither 4 nor 0 is there.
    assert_eq!(machine.feed(get(4)), named((8, 0), (7, 1), 9));
    assert_eq!(machine.feed(get(0)), named((9, 0), (6, 1), 10));
}

#[test]
fn stack_of_size_8_overflows() {
    let mut pair = Pair::open(STACK, 8);
    for value in 1..=100 {
        let (outcome, _) = pair.call(push(value), &[0; 3]);
        let beyond = (value as usize).saturating_sub(36);
        assert_eq!((outcome.answer, outcome.peak), (Answer::Pushed, beyond));
        assert_eq!(pair.plain.count, beyond);
    }
    assert_eq!(pair.plain.count, 64);
    let (outcome, trace) = pair.call(push(101), &[0; 3]);
    assert_eq!((outcome.answer, trace), (Answer::Refused(9), vec![0, 0]));
    assert_eq!(outcome.peak, 65);
    assert_eq!(
        (pair.plain.mark, pair.plain.entries, pair.plain.count),
        (9, 101, 65)
    );
    assert_eq!(
        pair.plain.root,
        Link {
            height: 1,
            key: 101,
            tag: 0
        }
    );
    assert_eq!(pair.call(pop(), &[0; 3]).0, Outcome::refused(1));
}

/// The numbers by position.
fn numbers(pair: &Pair) -> Vec<u64> {
    pair.audit();
    pair.nodes().values().map(|node| node.value).collect()
}

#[test]
fn numbers_of_a_heap() {
    let mut pair = Pair::open(HEAP, 3);
    let tape = zero_tape(HEAP, 3);
    let steps: [(Ticket, Answer, &[u64]); 9] = [
        (add(40), Answer::Added, &[40]),
        (add(30), Answer::Added, &[30, 40]),
        (add(20), Answer::Added, &[20, 40, 30]),
        (add(10), Answer::Added, &[10, 20, 30, 40]),
        (add(15), Answer::Added, &[10, 15, 30, 40, 20]),
        (take(), Answer::Taken(10), &[15, 20, 30, 40]),
        (take(), Answer::Taken(15), &[20, 40, 30]),
        (take(), Answer::Taken(20), &[30, 40]),
        (take(), Answer::Taken(30), &[40]),
    ];
    for (ticket, answer, left) in steps {
        assert_eq!(pair.answer(ticket, &tape), answer);
        assert_eq!(numbers(&pair), left);
    }
    assert_eq!(pair.answer(take(), &tape), Answer::Taken(40));
    assert_eq!(pair.plain, Pair::open(HEAP, 3).plain);
    assert_eq!(pair.answer(take(), &tape), Answer::Empty);
}

/// What a take meets on a heap with these numbers by position.
fn take_branches(numbers: &[u64]) -> Vec<Branch> {
    let mut pair = Pair::open(HEAP, 3);
    let tape = zero_tape(HEAP, 3);
    for &number in numbers {
        pair.call(add(number), &tape);
    }
    assert_eq!(self::numbers(&pair), numbers);
    let Pair {
        mut plain,
        mut tree,
        ..
    } = pair;
    let ticket = take().bytes();
    plain::call_and_met(&mut plain, &mut tree, &ticket, &tape, &mut [0; 18])
        .1
        .branches
}

#[test]
fn branches_of_takes() {
    use Branch::*;
    assert_eq!(take_branches(&[]), [TakeFromEmpty]);
    assert_eq!(take_branches(&[1]), [TakeOfOne]);
    assert_eq!(take_branches(&[1, 2]), [TakeOfTwo]);
    let three = [TakeOfThree, ChildFetched, OnlyLeftChild];
    assert_eq!(
        take_branches(&[1, 2, 3]),
        [&three[..], &[TakeSinksLeft, TakeReachesBottom]].concat()
    );
    assert_eq!(
        take_branches(&[1, 2, 2]),
        [&three[..], &[TakeStaysAtOnce, TakeStopsAtEqual]].concat()
    );
    assert_eq!(
        take_branches(&[1, 3, 2]),
        [&three[..], &[TakeStaysAtOnce]].concat()
    );
    assert_eq!(
        take_branches(&[1, 2, 2, 3, 3, 9]),
        [
            ChildFetched,
            ChildHeld,
            TakeSinksLeft,
            EqualChildren,
            ChildFetched,
            ChildFetched,
            TakeSinksLeft,
            EqualChildren,
            TakeReachesBottom
        ]
    );
    assert_eq!(
        take_branches(&[1, 9, 2, 10, 11, 4, 3]),
        [
            ChildFetched,
            ChildHeld,
            TakeSinksRight,
            ChildFetched,
            OnlyLeftChild,
            TakeStopsHalfway
        ]
    );
}

#[test]
fn origins_of_a_heap() {
    let mut machine = Machine::new(HEAP, 2);
    assert_eq!(machine.feed(take()), own(1, 0));
    assert_eq!(machine.feed(add(10)), own(2, 0));
    // 1 and its link came from the add; then from this fetch.
    assert_eq!(machine.feed(add(20)), [vec![(2, 6)], own(3, 1)].concat());
    assert_eq!(machine.feed(add(30)), [vec![(3, 0)], own(4, 1)].concat());
    // A full heap's add fetches none.
    assert_eq!(machine.feed(add(5)), own(5, 0));
    // 1, 3, and 2 as the only child.
    let named = vec![(4, 0), (4, 6), (3, 6)];
    assert_eq!(machine.feed(take()), [named, own(6, 3)].concat());
    let named = vec![(6, 0), (6, 2)];
    assert_eq!(machine.feed(take()), [named, own(7, 2)].concat());
    assert_eq!(machine.feed(take()), [vec![(7, 0)], own(8, 1)].concat());
    assert_eq!(machine.feed(take()), own(9, 0));
}

#[test]
fn heap_of_size_8_overflows() {
    let mut pair = Pair::open(HEAP, 8);
    let tape = zero_tape(HEAP, 8);
    for value in 1..=100u32 {
        let (outcome, _) = pair.call(add(value.into()), &tape);
        let (beyond, fetched) = (value.saturating_sub(36), value.ilog2());
        assert_eq!(outcome.answer, Answer::Added);
        assert_eq!(outcome.peak, beyond.max(fetched) as usize);
        assert_eq!(pair.plain.count, beyond as usize);
    }
    let (outcome, trace) = pair.call(add(101), &tape);
    assert_eq!((outcome.answer, trace), (Answer::Refused(9), vec![0; 25]));
    assert_eq!(outcome.peak, 65);
    assert_eq!(
        (pair.plain.mark, pair.plain.entries, pair.plain.count),
        (9, 101, 65)
    );
}

#[test]
fn tags_of_size_2() {
    let mut slot = [0; 32];
    slot[0] = 1;
    slot[16] = 3;
    assert!(matches!(read_slot(&slot, 2, Some(1)), Reading::Node(_)));
    assert!(fast::Node::read(&slot).is_good(2));
    slot[16] = 4;
    assert_eq!(read_slot(&slot, 2, Some(1)), Reading::Bad);
    assert!(!fast::Node::read(&slot).is_good(2));
}

#[test]
fn ticket_lengths() {
    let mut pair = Pair::open(STACK, 2);
    for length in [0, 1, 12, 14, 26] {
        let ticket = vec![PUSH; length];
        assert_eq!(
            pair.call_with(&ticket, &[0; 3], &mut [0; 2]),
            Outcome::refused(4)
        );
    }
}

#[test]
fn openings() {
    let closed = |structure, size, length| {
        let tree = vec![7; length];
        let pair = Pair::open_over(structure, size, tree.clone());
        let zero = Pair::open(MAP, 1).plain;
        let expected = plain::State {
            mark: pair.plain.mark,
            structure: 0,
            size: 0,
            ..zero
        };
        assert_eq!(pair.plain, expected);
        assert_eq!(pair.tree, tree);
        pair.plain.mark
    };
    for size in [0, 9, 255] {
        assert_eq!(closed(MAP, size, 0), 12);
        assert_eq!(closed(STACK, size, 128 * 1023), 12);
        assert_eq!(closed(HEAP, size, 128), 12);
        assert_eq!(closed(QUEUE, size, 128 * 511), 12);
        assert_eq!(closed(5, size, 128), 11);
    }
    for structure in [0, 5, 255] {
        assert_eq!(closed(structure, 2, tree_bytes(2)), 11);
    }
    assert_eq!(closed(MAP, 1, 0), 3);
    assert_eq!(closed(MAP, 1, 128 * 3 - 1), 3);
    assert_eq!(closed(STACK, 8, 128 * 511 + 1), 3);
    assert_eq!(closed(HEAP, 2, 128 * 8), 3);
    assert_eq!(closed(QUEUE, 2, 128 * 3), 3);
    for structure in [MAP, STACK, HEAP, QUEUE] {
        let good = Pair::open(structure, 8);
        assert_eq!(good.tree, vec![0; 128 * 511]);
        assert_eq!(
            (good.plain.mark, good.plain.structure, good.plain.size),
            (0, structure, 8)
        );
    }
}

fn walk_output(input: &[u8]) -> String {
    output(Program::Walk, input)
}

fn program_output(input: &[u8]) -> String {
    let mut program = Command::new(env!("CARGO_BIN_EXE_walk"))
        .stdin(Stdio::piped())
        .stdout(Stdio::piped())
        .spawn()
        .unwrap();
    program.stdin.take().unwrap().write_all(input).unwrap();
    String::from_utf8(program.wait_with_output().unwrap().stdout).unwrap()
}

#[test]
fn walk_program() {
    let input = [
        vec![2, 2],
        call_bytes(push(50), &[1, 2, 3]),
        call_bytes(pop(), &[0, 1, 1]),
    ]
    .concat();
    let lines = ["pushed 0 1 3\n", "popped 50 2 1\n"];
    assert_eq!(program_output(&input), lines.concat());
    for length in 0..=input.len() {
        let expected = match length {
            2 => String::new(),
            21 => lines[0].to_string(),
            40 => lines.concat(),
            0..=20 => "short\n".to_string(),
            _ => lines[0].to_string() + "short\n",
        };
        assert_eq!(walk_output(&input[..length]), expected, "{length}");
    }
}

#[test]
fn walk_program_refusals() {
    assert_eq!(walk_output(&[0, 2, 1, 2, 3]), "refused 11\n");
    assert_eq!(walk_output(&[5, 0]), "refused 11\n");
    assert_eq!(walk_output(&[4, 0]), "refused 12\n");
    assert_eq!(walk_output(&[3, 0]), "refused 12\n");
    assert_eq!(walk_output(&[1, 0]), "refused 12\n");
    assert_eq!(walk_output(&[2, 9, 0]), "refused 12\n");
    assert_eq!(walk_output(&[3]), "short\n");
    let mut input = vec![2, 8, 0];
    input.pop();
    for value in 1..=102 {
        input.extend(call_bytes(push(value), &[0; 3]));
    }
    input.extend(call_bytes(get(0), &[0; 3]));
    let output = walk_output(&input);
    let last: Vec<&str> = output.lines().skip(99).collect();
    assert_eq!(
        last,
        ["pushed 0 0 0", "refused 9 0 0", "refused 1", "refused 1"]
    );
    let input = [
        vec![2, 1],
        call_bytes(get(0), &[0; 3]),
        call_bytes(pop(), &[7, 8, 9]),
    ]
    .concat();
    assert_eq!(walk_output(&input), "refused 5\nempty 0 1 1\n");
}
