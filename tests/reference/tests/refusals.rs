//! The causes 1 to 7, 17 and 19: each alone, and the order of check.

mod common;

use common::*;
use reference::fields;
use reference::paper::*;
use reference::plain::{write_slot, Node, State};

fn grown(structure: u8, size: u8, calls: u64) -> Pair {
    let mut pair = Pair::open(structure, size);
    let tape = vec![0; tape_length(structure, size)];
    for number in 0..calls {
        let ticket = match structure {
            MAP => put(number as u32, number),
            STACK => push(number),
            HEAP => add(number),
            _ => queue_in(number),
        };
        assert!(!matches!(pair.answer(ticket, &tape), Answer::Refused(_)));
    }
    pair
}

/// Whether a changed state is refused with 2.
fn is_unfit(pair: &Pair, change: impl Fn(&mut State)) -> bool {
    let mut pair = pair.clone();
    pair.edit(|state, _| change(state));
    let tape = vec![0; 200];
    let ticket = match pair.plain.structure {
        MAP => get(5),
        STACK => pop(),
        HEAP => take(),
        _ => queue_out(),
    };
    let mut trace = vec![0; 200];
    pair.call_with(&ticket.bytes(), &tape, &mut trace) == Outcome::refused(2)
}

#[test]
fn unfit_fields() {
    let pair = grown(STACK, 8, 40);
    assert!(!is_unfit(&pair, |_| {}));
    for structure in [0, 5, 255] {
        assert!(is_unfit(&pair, |state| state.structure = structure));
    }
    for size in [0, 9, 64, 255] {
        assert!(is_unfit(&pair, |state| state.size = size));
    }
    for entries in [0, 1, 39, 41, 255, 256, u32::MAX] {
        assert!(is_unfit(&pair, |state| state.entries = entries));
    }
    assert!(is_unfit(&pair, |state| {
        state.entries = 256;
        state.root.key = 256;
    }));
    assert!(!is_unfit(&pair, |state| {
        state.entries = 255;
        state.root.key = 255;
    }));
    assert!(is_unfit(&pair, |state| state.root.tag = 256));
    assert!(!is_unfit(&pair, |state| state.root.tag = 255));
    assert!(is_unfit(&pair, |state| state.root.height = 0));
    assert!(is_unfit(&pair, |state| state.root.height = 2));
    assert!(is_unfit(&pair, |state| state.root.key = 39));
}

#[test]
fn unfit_empty_roots() {
    for structure in [MAP, STACK, HEAP, QUEUE] {
        let pair = Pair::open(structure, 3);
        assert!(!is_unfit(&pair, |_| {}));
        assert!(is_unfit(&pair, |state| state.root.tag = 1));
        assert!(is_unfit(&pair, |state| state.root.key = 1));
        assert!(is_unfit(&pair, |state| state.root.height = 1));
    }
}

/// With entries, height 1 and key 1, whatever their number.
#[test]
fn heap_roots() {
    let pair = grown(HEAP, 8, 40);
    assert!(!is_unfit(&pair, |_| {}));
    for (key, height) in [(0, 1), (2, 1), (40, 1), (1, 0), (1, 2), (1, 6)] {
        assert!(is_unfit(&pair, |state| {
            state.root.key = key;
            state.root.height = height;
        }));
    }
    assert!(is_unfit(&pair, |state| state.root = Link::NONE));
    assert!(is_unfit(&pair, |state| state.root.tag = 256));
    assert!(!is_unfit(&pair, |state| state.root.tag = 255));
    for entries in [1, 39, 41, 255] {
        assert!(!is_unfit(&pair, |state| state.entries = entries));
    }
    for entries in [0, 256, u32::MAX] {
        assert!(is_unfit(&pair, |state| state.entries = entries));
    }
}

/// With entries, height 1 and the next unused key less the entries.
#[test]
fn queue_roots() {
    let pair = grown(QUEUE, 8, 40);
    assert!(!is_unfit(&pair, |_| {}));
    for (height, key) in [(0, 0), (2, 0), (1, 1), (1, 40), (1, u32::MAX)] {
        assert!(is_unfit(&pair, |state| state.root = link(height, key, 0)));
    }
    assert!(is_unfit(&pair, |state| state.root.tag = 256));
    assert!(!is_unfit(&pair, |state| state.root.tag = 255));
    let unfit = |entries: u32, root: u32, next: u32| {
        is_unfit(&pair, |state| {
            (state.entries, state.root.key, state.ahead.key) = (entries, root, next);
        })
    };
    for (entries, root, next) in [
        (255, 0, 255),
        (1, 0, 1),
        (1, 39, 40),
        (40, 1, 41),
        (40, u32::MAX - 40, u32::MAX),
        (1, u32::MAX - 1, u32::MAX),
    ] {
        assert!(!unfit(entries, root, next));
        assert!(unfit(entries, root + 1, next));
        assert!(unfit(entries, root, next - 1));
    }
    assert!(unfit(256, 0, 256), "too many entries");
    assert!(unfit(0, 0, 40), "no entries, and a root");
    // The next unused key less the entries is below 0.
    assert!(unfit(40, 0, 39));
    assert!(unfit(40, u32::MAX, 39));
    assert!(unfit(40, u32::MAX - 39, 0));
}

/// Below 2^k, and 0 without entries; the next unused key is any then.
#[test]
fn tags_drawn_ahead() {
    for size in 1..=GREATEST_SIZE {
        let leaves = 1u16 << size;
        let (some, none) = (grown(QUEUE, size, 1), Pair::open(QUEUE, size));
        for tag in [0, 1, leaves - 1, leaves, leaves + 1, 65535] {
            let unfit = |pair| is_unfit(pair, |state| state.ahead.tag = tag);
            assert_eq!(unfit(&some), tag >= leaves);
            assert_eq!(unfit(&none), tag != 0);
        }
        for key in [1, 255, 256, u32::MAX - 1, u32::MAX] {
            assert!(!is_unfit(&none, |state| state.ahead.key = key));
        }
    }
}

/// Only a queue has a next unused key or a tag drawn ahead.
#[test]
fn nothing_ahead_of_other_structures() {
    for structure in [MAP, STACK, HEAP] {
        for calls in [0, 1, 3] {
            let pair = grown(structure, 3, calls);
            assert!(!is_unfit(&pair, |_| {}));
            assert!(is_unfit(&pair, |state| state.ahead.tag = 1));
            for key in [1, 3, u32::MAX] {
                assert!(is_unfit(&pair, |state| state.ahead.key = key));
            }
        }
    }
}

#[test]
fn map_root_heights() {
    let pair = Pair::open(MAP, 8);
    // Least and most entries by height.
    let least = [0, 1, 2, 4, 7, 12, 20, 33, 54, 88, 143, 232];
    for height in 0..=255u8 {
        for entries in 0..=255u32 {
            let possible = match usize::from(height) {
                known @ 0..=11 => least[known] <= entries && entries < 1 << height.min(9),
                _ => false,
            };
            if height > 14 && entries % 16 != 15 {
                continue;
            }
            let unfit = is_unfit(&pair, |state| {
                state.entries = entries;
                state.root.height = height;
            });
            assert_eq!(unfit, !possible, "{height} {entries}");
        }
    }
}

#[test]
fn unfit_waiting() {
    let pair = grown(STACK, 8, 40);
    assert_eq!(pair.plain.count, 4);
    for (at, byte) in [
        (0, 0),
        (0, 2),
        (1, 0),
        (2, 1),
        (3, 1),
        (17, 1),
        (19, 1),
        (12, 1),
        (22, 1),
    ] {
        let unfit = is_unfit(&pair, |state| {
            state.places[1][2] = 0;
            state.places[1][at] = byte;
        });
        assert!(unfit || (at, byte) == (2, 1), "byte {at} as {byte}");
    }
    assert!(is_unfit(&pair, |state| state.places[1] = [0; 32]));
    assert!(is_unfit(&pair, |state| state.places.swap(1, 2)));
    assert!(is_unfit(&pair, |state| state.places[1] = state.places[2]));
    assert!(is_unfit(&pair, |state| state.count = 3));
    assert!(is_unfit(&pair, |state| state.count = 5));
    assert!(is_unfit(&pair, |state| state.count = usize::MAX));
    for at in 4..PLACES {
        assert!(is_unfit(&pair, |state| state.places[at][31] = 1));
    }
    assert!(!is_unfit(&pair, |state| state.places[1][31] = 1));
    // The bucket of a waiting node is not asked about.
    assert!(!is_unfit(&pair, |state| state.places[1][16] = 255));
}

#[test]
fn sixty_four_may_wait() {
    let pair = Pair::open(STACK, 8);
    let waiting = |count: u32| -> Vec<Node> {
        let node = |key| Node {
            key,
            tag: 0,
            value: 0,
            left: Link::NONE,
            right: Link::NONE,
        };
        (0..count).map(node).collect()
    };
    assert!(!is_unfit(&pair, |state| state.set_waiting(&waiting(64))));
    assert!(is_unfit(&pair, |state| state.set_waiting(&waiting(65))));
    assert!(is_unfit(&pair, |state| state.set_waiting(&waiting(101))));
    let all: Vec<Slot> = waiting(101).iter().map(write_slot).collect();
    assert!(is_unfit(&pair, |state| state.places = all.clone()));
}

/// The order of check.
const ORDER: [u8; 9] = [1, 2, 3, 4, 5, 19, 17, 6, 7];

/// Any of the causes at once: the first in order is returned.
#[test]
fn order_of_causes() {
    let mut random = seeded(31);
    for _ in 0..6000 {
        let structure = 1 + random.below(4) as u8;
        let size = 1 + random.below(3) as u8;
        let mut causes: Vec<u8> = ORDER.into_iter().filter(|_| random.one_in(4)).collect();
        causes.retain(|&cause| cause != 17 || structure == QUEUE);
        let mut pair = faulty_store(&mut random, structure, size, &causes);
        let ticket = faulty_ticket(&mut random, structure, &causes);
        let (mut numbers, leaves) = (
            tape_length(structure, size),
            2 * fetch_rounds(structure, size),
        );
        if causes.contains(&6) {
            numbers = random.index(numbers);
        }
        let places = match causes.contains(&7) {
            true => random.index(leaves),
            false => leaves + 3,
        };
        let outcome = pair.call_with(&ticket, &vec![1; numbers], &mut vec![0xbeef; places]);
        match causes.first() {
            Some(&cause) => assert_eq!(outcome, Outcome::refused(cause)),
            None => assert_eq!(outcome.leaves, leaves),
        }
    }
}

/// A store for the causes 1, 2, 3 and 17; its queue is empty, full or between.
fn faulty_store(random: &mut Random, structure: u8, size: u8, causes: &[u8]) -> Pair {
    let calls = match structure {
        QUEUE => random.pick(&[0, 1, capacity(size)]),
        _ => 1,
    };
    let mut pair = grown(structure, size, u64::from(calls));
    if causes.contains(&17) {
        move_keys(&mut pair, u32::MAX);
    }
    let mark = random.pick(&[1, 3, 8, 9, 12, 17, 255]);
    let lengths = [0, 128, tree_bytes(size) - 1, tree_bytes(size) + 1];
    let length = random.pick(&lengths);
    pair.edit(|state, tree| {
        if causes.contains(&1) {
            state.mark = mark;
        }
        if causes.contains(&2) {
            state.places[100][0] = 1;
        }
        if causes.contains(&3) {
            tree.resize(length, 0);
        }
    });
    pair
}

/// A ticket for the causes 4, 5, 19 and 17. A foreign kind has figures or not.
fn faulty_ticket(random: &mut Random, structure: u8, causes: &[u8]) -> Vec<u8> {
    let kinds = [0, 1, 2, 3, 4, 5, 6, 7, 8, 9, 10, 255].into_iter();
    let foreign = causes.contains(&5);
    let kinds: Vec<u8> = kinds
        .filter(|&kind| kind_fits(structure, kind) != foreign)
        .collect();
    let kind = match causes.contains(&17) && !foreign {
        true => IN,
        false => random.pick(&kinds),
    };
    let clean = Ticket::new(kind, 7, 8).cleaned();
    let ticket = match (causes.contains(&19), kind) {
        (false, _) => clean,
        (true, PUT) if !foreign => fields::stray_of(random, structure),
        (true, GET..=OUT) if kind != PUT => fields::stray(random, kind),
        (true, _) => fields::any(random, kind),
    };
    let mut ticket = ticket.bytes().to_vec();
    if causes.contains(&4) {
        ticket.resize(random.pick(&[0, 1, 12, 14, 30]), 0);
    }
    ticket
}
