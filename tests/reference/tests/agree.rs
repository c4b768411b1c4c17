//! `plain` against `fast` on random runs with damage of every sort: answers,
//! states, trees and traces are compared at every call (see `Pair`).

mod common;

use common::*;
use reference::fields;
use reference::listing;
use reference::paper::*;
use reference::plain::{path, read_slot, write_slot, Node, Reading, Side, State};
use std::collections::BTreeMap;

/// How often each outcome was met, by structure.
#[derive(Default)]
struct Tally(BTreeMap<(u8, String), usize>);

impl Tally {
    fn count(&mut self, structure: u8, size: u8, outcome: Outcome) {
        let name = match outcome.answer {
            Answer::Refused(cause @ (8 | 9)) => {
                let fetching = outcome.leaves <= fetch_rounds(structure, size);
                format!("refused {cause} {}", if fetching { "fetch" } else { "put" })
            }
            Answer::Refused(cause) => format!("refused {cause}"),
            answer => answer.word().to_string(),
        };
        *self.0.entry((structure, name)).or_default() += 1;
    }

    fn assert_met(&self, structure: u8, names: &[&str]) {
        println!("{:?}", self.0);
        for name in names {
            let met = self
                .0
                .get(&(structure, name.to_string()))
                .copied()
                .unwrap_or(0);
            assert!(
                met >= 20,
                "structure {structure}: {name} was met {met} times"
            );
        }
    }
}

fn random_tape(random: &mut Random) -> Tape {
    match random.below(6) {
        0 => Tape::Zero,
        1 => Tape::Few(2),
        2 => Tape::Few(4),
        _ => Tape::Uniform,
    }
}

/// A store after some random calls, not closed.
fn grown(random: &mut Random, structure: u8, size: u8) -> Pair {
    let mut pair = Pair::open(structure, size);
    let tape = random_tape(random);
    for _ in 0..random.index(3 * leaf_count(size).min(40)) {
        let before = pair.clone();
        if random_call(random, &mut pair, tape).answer == Answer::Refused(OVERFLOW) {
            return before;
        }
    }
    pair
}

fn random_call(random: &mut Random, pair: &mut Pair, tape: Tape) -> Outcome {
    let (structure, size) = (pair.plain.structure, pair.plain.size);
    let ticket = random_ticket(random, structure, size);
    let numbers = tape.numbers(random, tape_length(structure, size));
    pair.call(ticket, &numbers).0
}

/// The offsets and nodes of the slots that are not bad.
fn used(tree: &[u8], size: u8) -> Vec<(usize, Node)> {
    listing::used_slots(tree, size)
        .into_iter()
        .filter_map(|(offset, reading)| match reading {
            Reading::Node(node) => Some((offset, node)),
            _ => None,
        })
        .collect()
}

fn damage_link(random: &mut Random, link: &mut Link, keys: &[u32], size: u8) {
    match random.below(6) {
        0 => link.height = link.height.wrapping_add(1),
        1 => link.height = link.height.saturating_sub(1),
        2 | 3 => link.key = keys[random.index(keys.len())],
        4 => link.tag = random.below(1 << size) as u16,
        _ => *link = Link::NONE,
    }
}

/// Changes a field of a node to something plausible.
fn damage_node(random: &mut Random, node: &mut Node, keys: &[u32], size: u8) {
    match random.below(11) {
        0 => node.key = keys[random.index(keys.len())],
        1 => node.key = node.key.wrapping_add(1),
        2 => node.key = node.key.wrapping_sub(1),
        3 => node.tag = random.below((1 << size) + 1) as u16,
        4 => std::mem::swap(&mut node.left, &mut node.right),
        5 | 6 => damage_link(random, &mut node.left, keys, size),
        7 | 8 => damage_link(random, &mut node.right, keys, size),
        9 => node.value = random.below(8),
        _ => *node = link_to_child(random, *node, size),
    }
}

/// A node with a link to one of a heap's positions below it, whether it is
/// there or not.
fn link_to_child(random: &mut Random, mut node: Node, size: u8) -> Node {
    let side = random.pick(&[Side::Left, Side::Right]);
    *node.link_mut(side) = Link {
        height: 1,
        key: node.key.wrapping_mul(2) | side as u32,
        tag: random.below(1 << size) as u16,
    };
    node
}

fn damage_tree(random: &mut Random, tree: &mut [u8], size: u8) {
    let used = used(tree, size);
    let kind = random.below(8);
    if used.is_empty() || kind == 0 {
        tree[random.index(tree.len())] ^= 1 << random.below(8);
        return;
    }
    let keys: Vec<u32> = used.iter().map(|(_, node)| node.key).collect();
    let (offset, mut node) = used[random.index(used.len())];
    let slot = offset..offset + SLOT_BYTES;
    let (other, _) = used[random.index(used.len())];
    match kind {
        1 => tree[offset + random.index(SLOT_BYTES)] ^= 1 << random.below(8),
        2 => tree[slot].fill(0),
        3 => tree.copy_within(slot, other),
        4 => tree.copy_within(slot, SLOT_BYTES * random.index(tree.len() / SLOT_BYTES)),
        _ => {
            damage_node(random, &mut node, &keys, size);
            tree[slot].copy_from_slice(&write_slot(&node));
        }
    }
}

/// A node out of the tree comes to wait, in order: the store stays good.
fn move_to_waiting(random: &mut Random, state: &mut State, tree: &mut [u8]) {
    let used = used(tree, state.size);
    let mut waiting = state.waiting();
    if used.is_empty() || waiting.len() != state.count || waiting.len() >= WAITING_LIMIT {
        return;
    }
    let (offset, node) = used[random.index(used.len())];
    waiting.push(node);
    waiting.sort_by_key(|node| node.key);
    state.set_waiting(&waiting);
    if !random.one_in(4) {
        tree[offset..offset + SLOT_BYTES].fill(0);
    }
}

/// A node that nothing links to comes to wait.
fn add_stray(random: &mut Random, state: &mut State) {
    let mut waiting = state.waiting();
    if waiting.len() != state.count || waiting.len() >= WAITING_LIMIT {
        return;
    }
    let key = match state.structure {
        STACK | HEAP => state.entries.wrapping_add(random.below(3) as u32),
        QUEUE => state.ahead.key.wrapping_add(random.below(3) as u32),
        _ => random.below(u64::from(capacity(state.size)) * 3 / 2 + 1) as u32,
    };
    let tag = random.below(1 << state.size) as u16;
    waiting.push(stray(key, tag));
    waiting.sort_by_key(|node| node.key);
    state.set_waiting(&waiting);
}

/// Another next unused key, with or without the root's, or tag drawn ahead.
fn damage_ahead(random: &mut Random, state: &mut State) {
    let Ahead { key, tag } = &mut state.ahead;
    match random.below(5) {
        0 => *key = key.wrapping_add(1),
        1 => *key = key.wrapping_sub(1),
        2 => *tag = random.below((1 << state.size) + 1) as u16,
        3 => {
            *key = key.wrapping_add(1);
            state.root.key = state.root.key.wrapping_add(1);
        }
        _ => {
            *key = u32::MAX - random.below(2) as u32;
            state.root.key = key.wrapping_sub(state.entries);
        }
    }
}

fn damage_state(random: &mut Random, state: &mut State, tree: &mut [u8]) {
    let keys: Vec<u32> = used(tree, state.size)
        .iter()
        .map(|(_, node)| node.key)
        .collect();
    let keys = if keys.is_empty() { vec![0] } else { keys };
    match random.below(16) {
        0 => state.entries = random.below(1 << state.size) as u32,
        1 => state.entries = state.entries.wrapping_sub(1),
        2 => state.entries = state.entries.wrapping_add(1),
        3 => {
            let size = state.size;
            damage_link(random, &mut state.root, &keys, size);
        }
        4 => state.root.key = keys[random.index(keys.len())],
        5 => state.count = random.index(70),
        6 => {
            let at = random.index(PLACES);
            state.places[at][random.index(SLOT_BYTES)] ^= 1 << random.below(8);
        }
        7 => state.places.swap(0, 1),
        8 if state.count > 0 => {
            let at = random.index(state.count);
            if let Reading::Node(mut node) = read_slot(&state.places[at], state.size, None) {
                damage_node(random, &mut node, &keys, state.size);
                state.places[at] = write_slot(&node);
            }
        }
        9 | 10 => add_stray(random, state),
        11 | 12 if state.structure == QUEUE || random.one_in(4) => damage_ahead(random, state),
        _ => move_to_waiting(random, state, tree),
    }
}

/// Gives a node of the tree another key, in its slot and in every link to it:
/// only its order among the keys is wrong then.
fn rename(random: &mut Random, state: &mut State, tree: &mut [u8]) {
    let used = used(tree, state.size);
    if used.is_empty() {
        return;
    }
    let old = used[random.index(used.len())].1.key;
    let new = random.below(u64::from(capacity(state.size)) * 3 / 2 + 1) as u32;
    let renamed = |link: &mut Link| {
        if link.height != 0 && link.key == old {
            link.key = new;
        }
    };
    renamed(&mut state.root);
    for (offset, mut node) in used {
        renamed(&mut node.left);
        renamed(&mut node.right);
        if node.key == old {
            node.key = new;
        }
        tree[offset..offset + SLOT_BYTES].copy_from_slice(&write_slot(&node));
    }
}

/// Gives every node of the tree a value of few: a heap is out of order then.
fn disorder(random: &mut Random, state: &State, tree: &mut [u8]) {
    for (offset, mut node) in used(tree, state.size) {
        node.value = random.below(8);
        tree[offset..offset + SLOT_BYTES].copy_from_slice(&write_slot(&node));
    }
}

/// Damages a store up to twice.
fn damage(random: &mut Random, pair: &mut Pair) {
    let size = pair.plain.size;
    for _ in 0..random.below(3) {
        pair.edit(|state, tree| match random.below(5) {
            0 => damage_state(random, state, tree),
            1 => rename(random, state, tree),
            2 => disorder(random, state, tree),
            _ => damage_tree(random, tree, size),
        });
    }
}

/// Damages a store, calls it, and opens a closed one again by hand.
fn damaged_run(random: &mut Random, structure: u8, size: u8, tally: &mut Tally) {
    let mut pair = grown(random, structure, size);
    let tape = random_tape(random);
    for _ in 0..4 {
        damage(random, &mut pair);
        for _ in 0..random.below(6) {
            let outcome = random_call(random, &mut pair, tape);
            tally.count(structure, size, outcome);
        }
        if pair.plain.mark != 0 && random.one_in(2) {
            pair.edit(|state, _| state.mark = 0);
        }
    }
}

fn damaged_runs(seed: u64, structure: u8, times: usize, names: &[&str]) {
    let mut random = seeded(seed);
    let mut tally = Tally::default();
    for size in 1..=GREATEST_SIZE {
        // Small stores are quick, and damage is met sooner in them.
        let times = times >> usize::from(size.saturating_sub(4));
        for _ in 0..times {
            damaged_run(&mut random, structure, size, &mut tally);
        }
    }
    tally.assert_met(structure, names);
}

#[test]
fn damaged_maps() {
    let names = [
        "found",
        "absent",
        "replaced",
        "new",
        "removed",
        "refused 1",
        "refused 2",
        "refused 8 fetch",
        "refused 8 put",
        "refused 10",
    ];
    damaged_runs(21, MAP, 2000, &names);
}

/// A put and a get of one key with one tape: unless the put adds a node, they
/// fetch alike, and leave the same but for the value. Counts those on a map
/// that is full by its entry count.
fn put_beside_get(random: &mut Random, pair: &Pair, tally: &mut Tally) {
    const VALUE: u64 = 12345;
    let (size, rounds) = (pair.plain.size, fetch_rounds(MAP, pair.plain.size));
    let full = pair.plain.entries == capacity(size);
    let key = random_ticket(random, MAP, size).key;
    let tape = random_tape(random).numbers(random, 2 * rounds + 1);
    let (mut written, mut read) = (pair.clone(), pair.clone());
    let (outcome, trace) = written.call(put(key, VALUE), &tape);
    let (found, same_trace) = read.call(get(key), &tape);
    let expected = match found.answer {
        Answer::Found(value) => Answer::Replaced(value),
        Answer::Absent if full => Answer::Refused(FULL),
        Answer::Refused(cause) if full || found.leaves <= rounds => Answer::Refused(cause),
        _ => return,
    };
    assert_eq!((outcome.answer, trace), (expected, same_trace));
    let values = written.set_values(key, 0);
    let old = read.set_values(key, 0);
    assert!((&written.plain, &written.tree) == (&read.plain, &read.tree));
    let pairs = values.iter().zip(&old);
    let changed: Vec<u64> = pairs.filter(|(a, b)| a != b).map(|(a, _)| *a).collect();
    match expected {
        Answer::Replaced(_) => assert_eq!(changed, [VALUE]),
        // In a put round the step stands.
        Answer::Refused(8 | 9) if found.leaves > rounds => {
            assert!(changed.is_empty() || changed == [VALUE])
        }
        _ => assert_eq!(changed, []),
    }
    if full {
        tally.count(MAP, size, outcome);
    }
}

/// Good maps and damaged ones; the entry count often says full, or not quite,
/// whatever the tree holds.
#[test]
fn puts_beside_gets() {
    let mut random = seeded(34);
    let mut tally = Tally::default();
    for size in 1..=GREATEST_SIZE {
        for _ in 0..1000 >> size.saturating_sub(3) {
            let mut pair = grown(&mut random, MAP, size);
            damage(&mut random, &mut pair);
            pair.edit(|state, _| match random.below(3) {
                0 => state.entries = capacity(size),
                1 => state.entries = capacity(size) - 1,
                _ => {}
            });
            for _ in 0..4 {
                put_beside_get(&mut random, &pair, &mut tally);
            }
        }
    }
    let names = ["replaced", "refused 10", "refused 8 fetch", "refused 2"];
    tally.assert_met(MAP, &names);
}

#[test]
fn damaged_stacks() {
    let names = [
        "pushed",
        "popped",
        "empty",
        "refused 1",
        "refused 2",
        "refused 8 fetch",
        "refused 8 put",
        "refused 10",
    ];
    damaged_runs(22, STACK, 4000, &names);
}

#[test]
fn damaged_heaps() {
    let names = [
        "added",
        "taken",
        "empty",
        "refused 1",
        "refused 2",
        "refused 8 fetch",
        "refused 8 put",
        "refused 10",
    ];
    damaged_runs(30, HEAP, 2000, &names);
}

/// Some keys are used up, with nodes left or with none.
#[test]
fn damaged_queues() {
    let names = [
        "queued",
        "dequeued",
        "empty",
        "refused 1",
        "refused 2",
        "refused 8 fetch",
        "refused 8 put",
        "refused 10",
        "refused 17",
    ];
    damaged_runs(40, QUEUE, 4000, &names);
}

/// A queue whose keys are moved up does what it did, but for the keys, until
/// they are used up: then every in is refused, and outs go on.
#[test]
fn queues_near_the_greatest_key() {
    let mut random = seeded(41);
    let (mut refused, mut outs) = (0, 0);
    for run in 0..160 {
        let size = 1 + run % GREATEST_SIZE;
        let mut low = grown(&mut random, QUEUE, size);
        let mut high = low.clone();
        move_keys(&mut high, u32::MAX - random.below(12) as u32);
        while high.plain.mark == 0 && !random.one_in(60) {
            let ticket = random_ticket(&mut random, QUEUE, size);
            let tape = Tape::Uniform.numbers(&mut random, 4);
            let used_up = high.plain.ahead.key == u32::MAX;
            let (outcome, trace) = high.call(ticket, &tape);
            if used_up && ticket.kind == IN {
                assert_eq!(outcome, Outcome::refused(KEYS_USED_UP));
                refused += 1;
                continue;
            }
            assert_eq!((outcome, trace), low.call(ticket, &tape));
            let mut moved = low.clone();
            move_keys(&mut moved, high.plain.ahead.key);
            assert!((&moved.plain, &moved.tree) == (&high.plain, &high.tree));
            outs += usize::from(used_up);
        }
    }
    assert!(refused > 500 && outs > 200, "{refused} {outs}");
}

/// Numbers in any order are no damage, and both builds move them alike.
#[test]
fn disordered_heaps() {
    let mut random = seeded(32);
    for size in 1..=GREATEST_SIZE {
        for _ in 0..20 {
            let mut pair = grown(&mut random, HEAP, size);
            for _ in 0..10 {
                pair.edit(|state, tree| disorder(&mut random, state, tree));
                for _ in 0..3 {
                    let outcome = random_call(&mut random, &mut pair, Tape::Uniform);
                    assert!(!matches!(outcome.answer, Answer::Refused(1..=8)));
                }
            }
        }
    }
}

/// One field of one node of a good heap is changed, so that this and nothing
/// else is damage: every call that fetches the node meets 8.
#[test]
fn one_wrong_link_in_a_heap() {
    let mut random = seeded(33);
    let mut met = 0;
    for _ in 0..3000 {
        let size = 1 + random.below(5) as u8;
        let mut pair = grown(&mut random, HEAP, size);
        let used = used(&pair.tree, size);
        if used.is_empty() {
            continue;
        }
        let (offset, node) = used[random.index(used.len())];
        let changed = match random.below(3) {
            0 => link_to_child(&mut random, node, size),
            1 => Node {
                left: Link::NONE,
                ..node
            },
            _ => Node {
                right: Link {
                    height: 1,
                    ..node.left
                },
                ..node
            },
        };
        let same_shape =
            |one: Link, other: Link| (one.height, one.key) == (other.height, other.key);
        if same_shape(node.left, changed.left) && same_shape(node.right, changed.right) {
            continue;
        }
        pair.edit(|_, tree| {
            tree[offset..offset + SLOT_BYTES].copy_from_slice(&write_slot(&changed));
        });
        let entries = pair.plain.entries;
        let on_path = (0..8).any(|up| entries >> up == node.key);
        let tape = Tape::Uniform.numbers(&mut random, 2 * fetch_rounds(HEAP, size) + 1);
        let (outcome, _) = pair.call(take(), &tape);
        if on_path {
            assert_eq!(outcome.answer, Answer::Refused(DAMAGE));
            met += 1;
        }
    }
    assert!(met > 300, "{met}");
}

/// Fills the waiting list near its limit, and the empty slots of a bucket,
/// with nodes that nothing links to.
fn crowd(random: &mut Random, pair: &mut Pair, leaf: u64, buckets: &[usize]) {
    let aim = 58 + random.index(7);
    let mut waiting = pair.plain.waiting();
    let mut key = 10_000;
    while waiting.len() < aim {
        key += 1 + random.below(3) as u32;
        waiting.push(stray(key, leaf as u16));
    }
    pair.edit(|state, tree| {
        state.set_waiting(&waiting);
        for start in buckets.iter().map(|bucket| BUCKET_BYTES * (bucket - 1)) {
            for slot in tree[start..start + BUCKET_BYTES].chunks_mut(SLOT_BYTES) {
                if slot[0] == 0 {
                    key += 1;
                    slot.copy_from_slice(&write_slot(&stray(key, leaf as u16)));
                }
            }
        }
    });
}

fn stray(key: u32, tag: u16) -> Node {
    Node {
        key,
        tag,
        value: 0,
        left: Link::NONE,
        right: Link::NONE,
    }
}

/// A waiting list near its limit: fetches overflow where the strays fit the
/// root bucket alone, new nodes where they fill a whole path.
fn crowded_run(random: &mut Random, structure: u8, size: u8, tally: &mut Tally) {
    let mut pair = grown(random, structure, size);
    pair.edit(|state, _| {
        let mut waiting = state.waiting();
        waiting.retain(|node| node.key < 10_000);
        state.set_waiting(&waiting);
    });
    let tape = if random.one_in(2) {
        crowd(random, &mut pair, (1 << size) - 1, &[1]);
        Tape::Few(3)
    } else {
        crowd(random, &mut pair, 0, &path(0, size));
        Tape::Zero
    };
    for _ in 0..12 {
        let outcome = random_call(random, &mut pair, tape);
        tally.count(structure, size, outcome);
        if pair.plain.mark != 0 {
            return;
        }
    }
}

#[test]
fn crowded_stores() {
    let mut random = seeded(23);
    let mut tally = Tally::default();
    for structure in [MAP, STACK, HEAP, QUEUE] {
        let one_round = fetch_rounds(structure, 1) == 1;
        for size in 2..=GREATEST_SIZE {
            for _ in 0..if one_round { 150 } else { 40 } {
                crowded_run(&mut random, structure, size, &mut tally);
            }
        }
        tally.assert_met(structure, &["refused 9 put", "refused 9 fetch"]);
    }
}

/// Foreign kinds, stray fields and wrong lengths among good calls.
#[test]
fn odd_calls() {
    let mut random = seeded(24);
    let mut tally = Tally::default();
    for structure in [MAP, STACK, HEAP, QUEUE] {
        for size in 1..=GREATEST_SIZE {
            let mut pair = Pair::open(structure, size);
            let rounds = fetch_rounds(structure, size);
            for _ in 0..300 {
                let ticket = match random.below(5) {
                    0 => {
                        let kind = random.next() as u8 % 12;
                        fields::any(&mut random, kind)
                    }
                    1 => fields::stray_of(&mut random, structure),
                    _ => random_ticket(&mut random, structure, size),
                };
                let ticket = ticket.bytes();
                let ticket = &ticket[..if random.one_in(8) {
                    random.index(13)
                } else {
                    13
                }];
                let length =
                    tape_length(structure, size) + random.index(3) - usize::from(random.one_in(5));
                let tape = Tape::Uniform.numbers(&mut random, length);
                let mut trace =
                    vec![0xabcd; 2 * rounds + random.index(4) - usize::from(random.one_in(3))];
                let outcome = pair.call_with(ticket, &tape, &mut trace);
                tally.count(structure, size, outcome);
            }
        }
        tally.assert_met(
            structure,
            &[
                "refused 4",
                "refused 5",
                "refused 6",
                "refused 7",
                "refused 19",
            ],
        );
    }
}
