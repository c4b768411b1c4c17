//! Damage and overflow by hand: what is found when, and what is left.

mod common;

use common::*;
use reference::listing;
use reference::paper::*;
use reference::plain::{Node, Reading, State};

/// Size 2, keys 1, 2, 3 with root 2, all with tag 0 in leaf bucket 4.
fn three() -> Pair {
    let two = node(2, 0, link(1, 1, 0), link(1, 3, 0));
    let nodes = [
        (4, 0, leaf_node(1, 0)),
        (4, 1, two),
        (4, 2, leaf_node(3, 0)),
    ];
    store(MAP, 2, 3, link(2, 2, 0), &nodes)
}

const TAPE: [u16; 13] = [1, 2, 3, 1, 2, 3, 1, 2, 3, 1, 2, 3, 1];

#[test]
fn three_is_a_good_store() {
    let mut pair = three();
    pair.audit();
    let (outcome, trace) = pair.call(get(1), &TAPE);
    assert_eq!((outcome.answer, outcome.peak), (Answer::Found(10), 2));
    assert_eq!(trace, [0, 0, 3, 1, 2, 3, 2, 3, 1, 2, 3, 1]);
    pair.audit();
}

/// The leaves that a get of key 1 reveals on a damaged `three`.
fn leaves_at_damage(change: impl FnOnce(&mut Pair)) -> Vec<u16> {
    let mut pair = three();
    change(&mut pair);
    let (outcome, trace) = pair.call(get(1), &TAPE);
    assert_eq!(outcome.answer, Answer::Refused(8));
    assert_eq!(pair.answer(get(1), &TAPE), Answer::Refused(1));
    trace
}

fn leaves_with(bucket: usize, slot: usize, node: Node) -> Vec<u16> {
    leaves_at_damage(|pair| pair.edit(|_, tree| place(tree, bucket, slot, node)))
}

fn leaves_with_byte(offset: usize, byte: u8) -> Vec<u16> {
    leaves_at_damage(|pair| pair.edit(|_, tree| tree[offset] = byte))
}

#[test]
fn bad_slots() {
    for at in 1..32 {
        assert_eq!(
            leaves_with_byte(480 + at, 1),
            [0],
            "byte {at} of an empty slot"
        );
    }
    for flag in [0, 2, 255] {
        assert_eq!(leaves_with_byte(384, flag), [0]);
    }
    for at in [3, 8, 11, 12, 15, 17, 18, 19, 20, 21, 22, 23] {
        assert_eq!(
            leaves_with_byte(384 + at, 1),
            [0],
            "byte {at} of a leaf node"
        );
    }
    assert_eq!(leaves_with_byte(384 + 16, 4), [0], "tag of 2^k");
    assert_eq!(
        leaves_with_byte(384 + 16, 1),
        [0],
        "tag whose path misses the bucket"
    );
    assert_eq!(leaves_with_byte(416 + 18, 4), [0], "left tag of 2^k");
    assert_eq!(leaves_with_byte(416 + 21, 1), [0], "right tag of 256");
}

#[test]
fn bad_slots_off_the_path_do_not_count() {
    let mut pair = three();
    pair.edit(|_, tree| tree[128 * 4] = 2);
    let (outcome, trace) = pair.call(get(1), &[0; 13]);
    assert_eq!((outcome.answer, trace.len()), (Answer::Found(10), 12));
}

#[test]
fn keys_twice() {
    assert_eq!(leaves_with(4, 3, leaf_node(3, 0)), [0], "in one bucket");
    assert_eq!(leaves_with(1, 0, leaf_node(3, 2)), [0], "in two buckets");
    let leaves = leaves_at_damage(|pair| {
        pair.edit(|state, _| state.set_waiting(&[leaf_node(3, 3)]));
    });
    assert_eq!(leaves, [0], "path and waiting");
}

/// A held node's key on a later path.
#[test]
fn key_of_a_held_node() {
    let two = node(2, 0, link(1, 1, 3), link(1, 3, 0));
    let nodes = [
        (7, 0, leaf_node(1, 3)),
        (4, 1, two),
        (7, 2, leaf_node(2, 3)),
    ];
    let mut pair = store(MAP, 2, 3, link(2, 2, 0), &nodes);
    let (outcome, trace) = pair.call(get(1), &TAPE);
    assert_eq!((outcome.answer, trace), (Answer::Refused(8), vec![0, 3]));
    assert_eq!(pair.plain.waiting(), [Node { tag: 1, ..two }]);
    assert_eq!(used_nodes(&pair), [(768, nodes[0].2), (832, nodes[2].2)]);
}

/// Every field of what is left when the second wanted node is missing.
#[test]
fn missing_wanted_node() {
    let mut pair = three();
    pair.edit(|_, tree| place(tree, 4, 0, leaf_node(9, 0)));
    let (outcome, trace) = pair.call(get(1), &TAPE);
    assert_eq!((outcome.answer, trace), (Answer::Refused(8), vec![0, 0]));
    assert_eq!(outcome.peak, 1, "2 was held at the first close");
    let mut left = three().plain;
    left.mark = 8;
    left.root = link(2, 2, 1);
    left.set_waiting(&[node(2, 1, link(1, 1, 0), link(1, 3, 0))]);
    assert_eq!(pair.plain, left);
    assert_eq!(
        used_nodes(&pair),
        [(384, leaf_node(3, 0)), (416, leaf_node(9, 0))]
    );
}

#[test]
fn tags_that_differ() {
    let two = node(2, 0, link(1, 1, 1), link(1, 3, 0));
    assert_eq!(leaves_with(4, 1, two), [0, 1], "not on the path");
    let leaves = leaves_at_damage(|pair| {
        pair.edit(|state, tree| {
            place(tree, 4, 1, two);
            tree[384..416].fill(0);
            place(tree, 1, 0, leaf_node(1, 2));
            state.set_waiting(&[]);
        });
    });
    assert_eq!(leaves, [0, 1], "on the path");
    let leaves = leaves_at_damage(|pair| {
        pair.edit(|state, tree| {
            place(tree, 4, 1, two);
            tree[384..416].fill(0);
            for slot in 0..4 {
                place(tree, 1, slot, leaf_node(20 + slot as u32, 3));
            }
            state.set_waiting(&[leaf_node(25, 3)]);
        });
    });
    assert_eq!(leaves, [0, 1], "nowhere");
    assert_eq!(
        leaves_at_damage(|pair| pair.edit(|state, _| state.root.tag = 1)),
        [1]
    );
}

#[test]
fn map_heights() {
    let odd = |left, right| node(2, 0, link(left, 1, 0), link(right, 3, 0));
    assert_eq!(
        leaves_with(4, 1, odd(2, 1)),
        [0],
        "height is not the link's"
    );
    let one_sided = node(2, 0, link(1, 1, 0), Link::NONE);
    let mut pair = three();
    pair.edit(|_, tree| place(tree, 4, 1, one_sided));
    assert_eq!(
        pair.answer(get(1), &TAPE),
        Answer::Found(10),
        "sides 1 and 0 are fine"
    );
    let tall_leaf = node(1, 0, link(1, 0, 0), Link::NONE);
    assert_eq!(leaves_with(4, 0, tall_leaf), [0, 0]);
    let far = [
        node(2, 0, link(2, 1, 0), Link::NONE),
        node(2, 0, Link::NONE, link(2, 3, 0)),
    ];
    for two in far {
        let mut pair = store(MAP, 3, 4, link(3, 2, 0), &[(8, 0, two)]);
        let (outcome, trace) = pair.call(get(2), &[0; 25]);
        assert_eq!(
            (outcome.answer, trace),
            (Answer::Refused(8), vec![0]),
            "sides 2 and 0"
        );
    }
    let highest = node(2, 0, link(255, 1, 0), link(255, 3, 0));
    let mut pair = store(MAP, 3, 4, link(3, 2, 0), &[(8, 0, highest)]);
    assert_eq!(
        pair.answer(get(2), &[0; 25]),
        Answer::Refused(8),
        "no wrapping"
    );
}

#[test]
fn map_keys_out_of_bounds() {
    for key in [2, 3] {
        let two = node(2, 0, link(1, key, 0), link(1, 3, 0));
        assert_eq!(leaves_with(4, 1, two), [0, 0], "left key {key}");
    }
    // Below 5 on the left of 8, so from 6 to 7: a 4 or a 9 is out.
    for (key, good) in [
        (4, false),
        (5, false),
        (6, true),
        (7, true),
        (8, false),
        (9, false),
    ] {
        let five = node(5, 0, Link::NONE, link(1, key, 0));
        let eight = node(8, 0, link(2, 5, 0), link(1, 10, 0));
        let nodes = [
            (8, 0, five),
            (8, 1, eight),
            (4, 0, leaf_node(key, 0)),
            (4, 1, leaf_node(10, 0)),
        ];
        let mut pair = store(MAP, 3, 4, link(3, 8, 0), &nodes);
        let (outcome, trace) = pair.call(get(key.clamp(6, 7)), &[0; 25]);
        if good {
            assert_eq!(outcome.answer, Answer::Found(u64::from(key) * 10));
        } else if key == 5 || key == 8 {
            assert_eq!(
                (outcome.answer, trace),
                (Answer::Refused(8), vec![0]),
                "twice"
            );
        } else {
            assert_eq!((outcome.answer, trace), (Answer::Refused(8), vec![0; 3]));
        }
    }
}

/// The entry count alone says whether a map is full: here 3 entries, and 2
/// nodes.
#[test]
fn full_by_the_count_alone() {
    let two = node(2, 0, link(1, 1, 0), Link::NONE);
    let nodes = [(4, 0, leaf_node(1, 0)), (4, 1, two)];
    let mut pair = store(MAP, 2, 3, link(2, 2, 0), &nodes);
    let (outcome, trace) = pair.call(put(1, 11), &TAPE);
    assert_eq!(outcome.answer, Answer::Replaced(10));
    assert_eq!(trace, [0, 0, 3, 1, 2, 3, 2, 3, 1, 2, 3, 1]);
    let one = Node {
        value: 11,
        ..leaf_node(1, 2)
    };
    let two = node(2, 1, link(1, 1, 2), Link::NONE);
    let left = |pair: &Pair| pair.nodes().into_values().collect::<Vec<_>>();
    assert_eq!((pair.plain.entries, pair.plain.root), (3, link(2, 2, 1)));
    assert_eq!(left(&pair), [one, two]);
    let (outcome, trace) = pair.call(put(3, 30), &TAPE);
    assert_eq!(outcome.answer, Answer::Refused(10));
    assert_eq!(trace, [1, 2, 3, 1, 2, 3, 2, 3, 1, 2, 3, 1]);
    assert_eq!((pair.plain.entries, pair.plain.root), (3, link(2, 2, 1)));
    assert_eq!(left(&pair), [one, two]);
}

/// 2 entries, and 3 nodes: a new one is added, and leaves a root height that no
/// tree with 3 entries has.
#[test]
fn not_full_by_the_count_alone() {
    let mut pair = three();
    pair.edit(|state, _| state.entries = 2);
    assert_eq!(pair.answer(put(1, 11), &TAPE), Answer::Replaced(10));
    assert_eq!((pair.plain.entries, pair.plain.root), (2, link(2, 2, 1)));
    assert_eq!(pair.answer(put(9, 90), &TAPE), Answer::New);
    assert_eq!((pair.plain.entries, pair.plain.root), (3, link(3, 2, 1)));
    assert_eq!(pair.nodes().len(), 4);
    assert_eq!(pair.answer(put(1, 12), &TAPE), Answer::Refused(2));
}

/// A key is present where the walk meets it. A stray 9 lies on the path, or
/// waits.
#[test]
fn a_stray_node_is_not_present() {
    let build = |entries, root| store(MAP, 1, entries, root, &[(2, 0, leaf_node(9, 0))]);
    let mut pair = build(1, link(1, 5, 0));
    pair.edit(|_, tree| place(tree, 2, 1, leaf_node(5, 0)));
    let mut waits = pair.clone();
    waits.edit(|state, tree| {
        tree[128..160].fill(0);
        state.set_waiting(&[leaf_node(9, 1)]);
    });
    for pair in [&mut pair, &mut waits] {
        let (outcome, trace) = pair.call(put(9, 7), &[0; 7]);
        assert_eq!((outcome.answer, trace), (Answer::Refused(10), vec![0; 6]));
        assert_eq!(pair.nodes()[&9].value, 90);
    }
    // With room a new 9 joins the stray one: damage in the first put round.
    let mut pair = build(0, Link::NONE);
    let (outcome, trace) = pair.call(put(9, 7), &[0; 7]);
    assert_eq!((outcome.answer, trace), (Answer::Refused(8), vec![0; 4]));
}

/// Damage in a put round of a put on a full map: the step stands.
#[test]
fn damage_after_a_put_on_a_full_map() {
    let run = |ticket| {
        let mut pair = three();
        pair.edit(|_, tree| tree[128 * 6] = 3);
        let tape = [1, 2, 0, 0, 0, 0, 0, 0, 3, 0, 0, 0, 0];
        let (outcome, trace) = pair.call(ticket, &tape);
        assert_eq!((outcome.answer, outcome.peak), (Answer::Refused(8), 2));
        assert_eq!(trace, [0, 0, 0, 0, 0, 0, 0, 3]);
        assert_eq!((pair.plain.entries, pair.plain.root), (3, link(2, 2, 1)));
        pair
    };
    let (one, two) = (leaf_node(1, 2), node(2, 1, link(1, 1, 2), link(1, 3, 0)));
    let left = |value| {
        let one = Node { value, ..one };
        let nodes = [(0, one), (128, two), (384, leaf_node(3, 0))];
        let mut slots = nodes.map(|(at, node)| (at, Reading::Node(node))).to_vec();
        slots.push((768, Reading::Bad));
        slots
    };
    assert_eq!(listing::used_slots(&run(put(1, 11)).tree, 2), left(11));
    assert_eq!(listing::used_slots(&run(put(0, 11)).tree, 2), left(10));
}

/// Damage in a fetch round that wants no node, after the key was found: nothing
/// is stored yet.
#[test]
fn damage_before_the_step_of_a_put_on_a_full_map() {
    let mut pair = three();
    pair.edit(|_, tree| tree[128 * 6] = 3);
    let tape = [1, 2, 0, 3, 0, 0, 0, 0, 0, 0, 0, 0, 0];
    let (outcome, trace) = pair.call(put(1, 11), &tape);
    assert_eq!(outcome.answer, Answer::Refused(8));
    assert_eq!(trace, [0, 0, 0, 3]);
    assert_eq!((pair.plain.entries, pair.plain.root), (3, link(2, 2, 1)));
    let two = node(2, 1, link(1, 1, 2), link(1, 3, 0));
    assert_eq!(pair.plain.waiting(), [leaf_node(1, 2), two]);
}

/// 2 with 1 and 4, and 4 with 3 and 5; to remove 1 fetches 2, 1 and then 4.
fn five(four: Node) -> Pair {
    let two = node(2, 0, link(1, 1, 0), link(2, 4, 0));
    let nodes = [
        (8, 0, leaf_node(1, 0)),
        (8, 1, two),
        (8, 2, leaf_node(3, 0)),
        (4, 0, four),
        (4, 1, leaf_node(5, 0)),
    ];
    store(MAP, 3, 5, link(3, 2, 0), &nodes)
}

fn counting_tape() -> Vec<u16> {
    (1..=25).collect()
}

#[test]
fn damage_in_a_fetch_for_rebalancing() {
    let mut pair = five(node(4, 1, link(1, 3, 0), link(1, 5, 0)));
    let (outcome, trace) = pair.call(remove(1), &counting_tape());
    assert_eq!((outcome.answer, trace), (Answer::Refused(8), vec![0; 3]));
    assert_eq!((pair.plain.entries, pair.plain.root), (5, link(3, 2, 1)));
    let two = node(2, 1, link(1, 1, 2), link(2, 4, 0));
    assert_eq!(pair.plain.waiting(), [leaf_node(1, 2), two]);
}

#[test]
fn double_rotation_fetches_the_inner_child() {
    let mut pair = five(node(4, 0, link(1, 3, 0), Link::NONE));
    pair.edit(|state, tree| {
        tree[128 * 3 + 32..128 * 3 + 64].fill(0);
        state.entries = 4;
    });
    pair.audit();
    let mut damaged = pair.clone();
    let (outcome, trace) = pair.call(remove(1), &counting_tape());
    assert_eq!(
        (outcome.answer, &trace[..6]),
        (Answer::Removed(10), &[0, 0, 0, 0, 5, 6][..])
    );
    pair.audit();
    assert_eq!(pair.plain.root, link(2, 3, 4));
    assert_eq!(pair.nodes()[&3], node(3, 4, link(1, 2, 1), link(1, 4, 3)));

    // The inner child's key lies beyond its parent's parent.
    damaged.edit(|_, tree| {
        place(tree, 8, 2, leaf_node(0, 0));
        place(tree, 4, 0, node(4, 0, link(1, 0, 0), Link::NONE));
    });
    let (outcome, trace) = damaged.call(remove(1), &counting_tape());
    assert_eq!((outcome.answer, trace), (Answer::Refused(8), vec![0; 4]));
    let left = [
        leaf_node(1, 2),
        node(2, 1, link(1, 1, 2), link(2, 4, 3)),
        node(4, 3, link(1, 0, 0), Link::NONE),
    ];
    assert_eq!(damaged.plain.waiting(), left);
}

/// To remove 10, 12 takes its place; the left child's key is asked to lie
/// below the removed key.
#[test]
fn the_removed_key_bounds_its_left_side() {
    let build = |left: u32| {
        let ten = node(10, 0, link(2, left, 0), link(1, 12, 0));
        let nodes = [
            (8, 0, node(left, 0, link(1, 1, 0), Link::NONE)),
            (8, 1, leaf_node(1, 0)),
            (8, 2, ten),
            (8, 3, leaf_node(12, 0)),
        ];
        store(MAP, 3, 4, link(3, 10, 0), &nodes)
    };
    let mut pair = build(5);
    assert_eq!(
        pair.answer(remove(10), &counting_tape()),
        Answer::Removed(100)
    );
    pair.audit();
    assert_eq!(pair.plain.root, link(2, 5, 3));
    let mut pair = build(11);
    let (outcome, trace) = pair.call(remove(10), &counting_tape());
    assert_eq!((outcome.answer, trace), (Answer::Refused(8), vec![0; 3]));
    let ten = node(10, 1, link(2, 11, 0), link(1, 12, 2));
    assert_eq!(pair.plain.waiting(), [ten, leaf_node(12, 2)]);
}

/// Two links with one key: only the one that was followed moves.
#[test]
fn one_link_moves() {
    let two = node(2, 0, link(1, 1, 0), link(1, 1, 0));
    let mut pair = three();
    pair.edit(|_, tree| place(tree, 4, 1, two));
    assert_eq!(pair.answer(get(1), &TAPE), Answer::Found(10));
    assert_eq!(pair.nodes()[&2], node(2, 1, link(1, 1, 2), link(1, 1, 0)));
}

#[test]
fn stack_tests() {
    let good = |top: Node| {
        let mut pair = store(STACK, 2, top.key, link(1, top.key, 0), &[(4, 0, top)]);
        let (outcome, trace) = pair.call(pop(), &[0; 3]);
        match outcome.answer {
            Answer::Popped(value) => value == top.value,
            answer => {
                assert_eq!((answer, trace), (Answer::Refused(8), vec![0]));
                false
            }
        }
    };
    assert!(good(leaf_node(1, 0)));
    assert!(!good(leaf_node(2, 0)));
    assert!(good(node(2, 0, link(1, 1, 3), Link::NONE)));
    assert!(!good(node(1, 0, link(1, 1, 3), Link::NONE)));
    assert!(!good(node(1, 0, link(1, 0, 0), Link::NONE)));
    assert!(!good(node(2, 0, link(2, 1, 3), Link::NONE)));
    assert!(!good(node(3, 0, link(1, 1, 3), Link::NONE)));
    assert!(!good(node(2, 0, link(1, 1, 3), link(1, 0, 0))));
    assert!(!good(node(1, 0, Link::NONE, link(1, 1, 0))));
}

/// Size 2, positions 1, 2, 3 with 10, 20, 30, all with tag 0 in leaf bucket 4.
fn small_heap() -> Pair {
    let one = node(1, 0, link(1, 2, 0), link(1, 3, 0));
    let nodes = [
        (4, 0, one),
        (4, 1, leaf_node(2, 0)),
        (4, 2, leaf_node(3, 0)),
    ];
    store(HEAP, 2, 3, link(1, 1, 0), &nodes)
}

/// The leaves that a take reveals on a changed `small_heap`, if it is damaged:
/// it fetches 1, 3 and 2.
fn take_at_damage(change: impl FnOnce(&mut State, &mut Vec<u8>)) -> Option<Vec<u16>> {
    let mut pair = small_heap();
    pair.edit(change);
    let (outcome, trace) = pair.call(take(), &TAPE);
    match outcome.answer {
        Answer::Taken(_) => None,
        answer => {
            assert_eq!(answer, Answer::Refused(8));
            Some(trace)
        }
    }
}

#[test]
fn heap_links() {
    assert_eq!(take_at_damage(|_, _| {}), None);
    let with_root =
        |left, right| take_at_damage(|_, tree| place(tree, 4, 0, node(1, 0, left, right)));
    let (two, three) = (link(1, 2, 0), link(1, 3, 0));
    assert_eq!(with_root(two, three), None);
    for (left, right, what) in [
        (link(1, 3, 0), three, "left key"),
        (two, link(1, 2, 0), "right key"),
        (three, two, "keys the other way round"),
        (link(2, 2, 0), three, "left height"),
        (two, link(2, 3, 0), "right height"),
        (Link::NONE, three, "no left link"),
        (two, Link::NONE, "no right link"),
    ] {
        assert_eq!(with_root(left, right), Some(vec![0]), "{what}");
    }
}

#[test]
fn heap_links_beyond_the_count() {
    let with_links = |key: u32, left, right| {
        let slot = key as usize - 1;
        take_at_damage(|_, tree| place(tree, 4, slot, node(key, 0, left, right)))
    };
    let none = Link::NONE;
    assert_eq!(with_links(3, link(1, 6, 0), none), Some(vec![0, 0]));
    assert_eq!(with_links(3, none, link(1, 7, 0)), Some(vec![0, 0]));
    // The one that the take fetches while it sinks.
    assert_eq!(with_links(2, link(1, 4, 0), none), Some(vec![0; 3]));
    assert_eq!(with_links(2, none, link(1, 5, 0)), Some(vec![0; 3]));
    // A count that the links do not have.
    assert_eq!(take_at_damage(|state, _| state.entries = 2), Some(vec![0]));
    assert_eq!(take_at_damage(|state, _| state.entries = 1), Some(vec![0]));
}

#[test]
fn heap_nodes() {
    let gone = |slot: usize| {
        take_at_damage(move |_, tree| {
            let start = BUCKET_BYTES * 3 + SLOT_BYTES * slot;
            tree[start..start + SLOT_BYTES].fill(0);
        })
    };
    assert_eq!(gone(0), Some(vec![0]));
    assert_eq!(gone(1), Some(vec![0; 3]));
    assert_eq!(gone(2), Some(vec![0, 0]));
    let twice = |bucket, slot, key| {
        take_at_damage(move |_, tree| place(tree, bucket, slot, leaf_node(key, 2)))
    };
    assert_eq!(twice(1, 0, 3), Some(vec![0]));
    // A held node's key on a later path.
    assert_eq!(twice(6, 0, 2), Some(vec![0, 0, 0, 1, 2]));
    let tags = |left, right| {
        let one = node(1, 0, link(1, 2, left), link(1, 3, right));
        take_at_damage(move |_, tree| place(tree, 4, 0, one))
    };
    assert_eq!(tags(0, 1), Some(vec![0, 1]));
    assert_eq!(tags(3, 0), Some(vec![0, 0, 3]));
    assert_eq!(take_at_damage(|state, _| state.root.tag = 1), Some(vec![1]));
}

/// Damage while a take sinks: the numbers have not moved, only tags.
#[test]
fn what_a_take_leaves_at_damage() {
    let mut pair = small_heap();
    pair.edit(|_, tree| place(tree, 4, 1, node(2, 0, link(1, 4, 0), Link::NONE)));
    let (outcome, trace) = pair.call(take(), &TAPE);
    assert_eq!((outcome.answer, trace), (Answer::Refused(8), vec![0; 3]));
    assert_eq!(outcome.peak, 2);
    assert_eq!((pair.plain.entries, pair.plain.root), (3, link(1, 1, 1)));
    let one = node(1, 1, link(1, 2, 0), link(1, 3, 2));
    assert_eq!(pair.plain.waiting(), [one, leaf_node(3, 2)]);
    let two = node(2, 0, link(1, 4, 0), Link::NONE);
    assert_eq!(used_nodes(&pair), [(384, two)]);
}

/// Size 3, positions 1, 2, 3 with these numbers, all with tag 0.
fn heap_with(numbers: [u64; 3]) -> Pair {
    let one = node(1, 0, link(1, 2, 0), link(1, 3, 0));
    let nodes = [one, leaf_node(2, 0), leaf_node(3, 0)];
    let with = |at: usize| Node {
        value: numbers[at],
        ..nodes[at]
    };
    let placed = [(8, 0, with(0)), (8, 1, with(1)), (8, 2, with(2))];
    store(HEAP, 3, 3, link(1, 1, 0), &placed)
}

/// Heap order is not asked for: the root's number is taken, though others are
/// smaller, and rising ends at the first parent that is not larger.
#[test]
fn heap_out_of_order() {
    let left = |mut pair: Pair, ticket: Ticket, answer: Answer| -> Vec<u64> {
        assert_eq!(pair.answer(ticket, &[0; 19]), answer);
        pair.nodes().values().map(|node| node.value).collect()
    };
    let taken = |numbers: [u64; 3]| left(heap_with(numbers), take(), Answer::Taken(numbers[0]));
    assert_eq!(taken([9, 4, 1]), [1, 4]);
    assert_eq!(taken([9, 4, 5]), [4, 5]);
    let added = |number: u64| left(heap_with([10, 3, 20]), add(number), Answer::Added);
    assert_eq!(added(5), [10, 3, 20, 5]);
    assert_eq!(added(3), [10, 3, 20, 3]);
    assert_eq!(added(2), [2, 10, 20, 3]);
}

/// Damage in a put round of an add: the step stands.
#[test]
fn damage_after_an_add() {
    let one = node(1, 0, link(1, 2, 0), Link::NONE);
    let mut pair = store(
        HEAP,
        2,
        2,
        link(1, 1, 0),
        &[(4, 0, one), (4, 1, leaf_node(2, 0))],
    );
    pair.edit(|_, tree| tree[128 * 6] = 3);
    let tape = [1, 0, 0, 0, 0, 0, 2, 0, 3, 0, 0, 0, 0];
    let (outcome, trace) = pair.call(add(5), &tape);
    assert_eq!(outcome.answer, Answer::Refused(8));
    assert_eq!(trace, [0, 0, 0, 0, 0, 0, 0, 3]);
    assert_eq!((pair.plain.entries, pair.plain.root), (3, link(1, 1, 1)));
    let one = Node {
        value: 5,
        ..node(1, 1, link(1, 2, 0), link(1, 3, 2))
    };
    let three = Node {
        value: 10,
        ..leaf_node(3, 2)
    };
    let expected = [
        (0, Reading::Node(three)),
        (128, Reading::Node(one)),
        (384, Reading::Node(leaf_node(2, 0))),
        (768, Reading::Bad),
    ];
    assert_eq!(listing::used_slots(&pair.tree, 2), expected);
}

/// The root bucket is full with nodes that go nowhere else on the path, and 62
/// wait: the third node that a take holds makes one too many. The numbers have
/// not moved.
#[test]
fn overflow_while_a_take_sinks() {
    let strays = |from: u32, count: u32| (from..from + count).map(|key| leaf_node(key, 255));
    let one = node(1, 0, link(1, 2, 0), link(1, 3, 0));
    let nodes = [
        (256, 0, one),
        (256, 1, leaf_node(2, 0)),
        (256, 2, leaf_node(3, 0)),
    ];
    let run = |waiting: u32| {
        let mut pair = store(HEAP, 8, 3, link(1, 1, 0), &nodes);
        pair.edit(|state, tree| {
            for (slot, stray) in strays(500, 4).enumerate() {
                place(tree, 1, slot, stray);
            }
            state.set_waiting(&strays(400, waiting).collect::<Vec<_>>());
        });
        let tape: Vec<u16> = (40..89).collect();
        let (outcome, trace) = pair.call(take(), &tape);
        (pair, (outcome.answer, outcome.peak), trace)
    };
    assert_eq!(run(61).1, (Answer::Taken(10), 64));
    let (pair, answer, trace) = run(62);
    assert_eq!((answer, trace), ((Answer::Refused(9), 65), vec![0; 3]));
    assert_eq!(
        (pair.plain.entries, pair.plain.root, pair.plain.count),
        (3, link(1, 1, 40), 65)
    );
    let one = node(1, 40, link(1, 2, 42), link(1, 3, 41));
    let fetched = [one, leaf_node(2, 42), leaf_node(3, 41)];
    assert_eq!(pair.plain.waiting()[..3], fetched);
}

/// 2, 4, 5 and 6 fill the root bucket, and a stray 7 waits: the 7 that is added
/// stands second.
#[test]
fn added_node_whose_key_waits() {
    let one = node(1, 0, link(1, 2, 7), link(1, 3, 0));
    let two = node(2, 7, link(1, 4, 7), link(1, 5, 7));
    let three = node(3, 0, link(1, 6, 7), Link::NONE);
    let nodes = [
        (8, 0, one),
        (8, 1, three),
        (1, 0, two),
        (1, 1, leaf_node(4, 7)),
        (1, 2, leaf_node(5, 7)),
        (1, 3, leaf_node(6, 7)),
    ];
    let mut pair = store(HEAP, 3, 6, link(1, 1, 0), &nodes);
    pair.audit();
    let stray = leaf_node(7, 7);
    pair.edit(|state, _| state.set_waiting(&[stray]));
    let (outcome, trace) = pair.call(add(5), &[0; 19]);
    assert_eq!((outcome.answer, trace), (Answer::Refused(8), vec![0; 10]));
    assert_eq!((pair.plain.entries, pair.plain.root), (7, link(1, 1, 0)));
    let right = link(1, 7, 0);
    let with = |value: u64, node: Node| Node { value, ..node };
    let left = [
        with(5, one),
        with(10, Node { right, ..three }),
        stray,
        with(30, leaf_node(7, 0)),
    ];
    assert_eq!(pair.plain.waiting(), left);
}

/// Damage in the put round: the step stands, the new node waits.
#[test]
fn damage_in_a_put_round() {
    let mut pair = store(STACK, 2, 1, link(1, 1, 0), &[(4, 0, leaf_node(1, 0))]);
    pair.edit(|_, tree| tree[128 * 6] = 3);
    let before = pair.tree.clone();
    let (outcome, trace) = pair.call(push(7), &[1, 2, 3]);
    assert_eq!((outcome.answer, trace), (Answer::Refused(8), vec![1, 3]));
    assert_eq!(outcome.peak, 0);
    assert_eq!(
        (pair.plain.mark, pair.plain.entries, pair.plain.root),
        (8, 2, link(1, 2, 2))
    );
    let new = Node {
        key: 2,
        tag: 2,
        value: 7,
        left: link(1, 1, 0),
        right: Link::NONE,
    };
    assert_eq!(pair.plain.waiting(), [new]);
    assert_eq!(pair.tree, before);
}

/// A stack of 60 zero-tape pushes has 24 waiting.
fn sixty() -> Pair {
    let mut pair = Pair::open(STACK, 8);
    for value in 1..=60 {
        pair.answer(push(value), &[0; 3]);
    }
    assert_eq!(pair.plain.count, 24);
    pair
}

#[test]
fn new_node_whose_key_waits_stands_second() {
    let mut pair = sixty();
    let stray = leaf_node(61, 0);
    let mut waiting = pair.plain.waiting();
    waiting.push(stray);
    let above = leaf_node(70, 0);
    waiting.push(above);
    pair.edit(|state, _| state.set_waiting(&waiting));
    let (outcome, trace) = pair.call(push(5), &[0; 3]);
    assert_eq!((outcome.answer, trace), (Answer::Refused(8), vec![0, 0]));
    assert_eq!((pair.plain.count, pair.plain.entries), (27, 61));
    assert_eq!(outcome.peak, 26, "the new node waits at no close");
    let new = Node {
        key: 61,
        tag: 0,
        value: 5,
        left: link(1, 60, 0),
        right: Link::NONE,
    };
    assert_eq!(pair.plain.waiting()[24..], [stray, new, above]);
}

/// The root bucket is full with nodes that go nowhere else on the path, and
/// 64 wait; to take the top out of its leaf bucket makes one too many.
#[test]
fn overflow_in_a_fetch_round() {
    let strays = |from: u32, count: u32| (from..from + count).map(|key| leaf_node(key, 255));
    let run = |waiting: u32| {
        let mut pair = store(STACK, 8, 1, link(1, 1, 0), &[(256, 0, leaf_node(1, 0))]);
        pair.edit(|state, tree| {
            for (slot, stray) in strays(500, 4).enumerate() {
                place(tree, 1, slot, stray);
            }
            state.set_waiting(&strays(100, waiting).collect::<Vec<_>>());
        });
        let (outcome, trace) = pair.call(pop(), &[9, 0, 1]);
        (pair, (outcome.answer, outcome.peak), trace)
    };
    let (_, answer, trace) = run(63);
    assert_eq!((answer, trace), ((Answer::Popped(10), 64), vec![0, 1]));
    let (pair, answer, trace) = run(64);
    assert_eq!((answer, trace), ((Answer::Refused(9), 65), vec![0]));
    assert_eq!(
        (pair.plain.mark, pair.plain.entries, pair.plain.root),
        (9, 1, link(1, 1, 9))
    );
    let mut left = vec![leaf_node(1, 9)];
    left.extend(strays(104, 60));
    left.extend(strays(500, 4));
    assert_eq!(pair.plain.waiting(), left);
    let root: Vec<Node> = strays(100, 4).collect();
    let expected: Vec<(usize, Node)> = (0..4).map(|slot| (32 * slot, root[slot])).collect();
    assert_eq!(used_nodes(&pair), expected);
}

/// The same for a map: the second fetch makes one too many.
#[test]
fn overflow_in_a_later_fetch_round_of_a_map() {
    let strays = |from: u32, count: u32| (from..from + count).map(|key| leaf_node(key, 255));
    let two = node(2, 0, link(1, 1, 0), Link::NONE);
    let nodes = [(256, 0, two), (256, 1, leaf_node(1, 0))];
    let mut pair = store(MAP, 8, 2, link(2, 2, 0), &nodes);
    pair.edit(|state, tree| {
        for (slot, stray) in strays(500, 4).enumerate() {
            place(tree, 1, slot, stray);
        }
        state.set_waiting(&strays(100, 63).collect::<Vec<_>>());
    });
    let tape: Vec<u16> = (0..67).map(|number| number + 256 + 40).collect();
    let (outcome, trace) = pair.call(remove(1), &tape);
    assert_eq!((outcome.answer, trace), (Answer::Refused(9), vec![0, 0]));
    assert_eq!(outcome.peak, 65);
    assert_eq!(
        (pair.plain.entries, pair.plain.root, pair.plain.count),
        (2, link(2, 2, 40), 65)
    );
    let fetched = [leaf_node(1, 41), node(2, 40, link(1, 1, 41), Link::NONE)];
    assert_eq!(pair.plain.waiting()[..2], fetched);
}

/// A wanted node that waits still has its path read and revealed.
#[test]
fn waiting_wanted_node() {
    let mut pair = three();
    pair.edit(|state, tree| {
        tree[384..416].fill(0);
        state.set_waiting(&[leaf_node(1, 0)]);
    });
    let (outcome, trace) = pair.call(get(1), &TAPE);
    assert_eq!(
        (outcome.answer, &trace[..3]),
        (Answer::Found(10), &[0, 0, 3][..])
    );
    pair.audit();
}
