//! Opening, calls, read-outs and lengths over bytes, as a C host makes them, by
//! hand; and against the same calls over numbers.

mod common;

use common::*;
use reference::fields;
use reference::host::{read_state, state_bytes};
use reference::lent::{records, Buffers, Opening, ReadOut, Record, Told};
use reference::paper::*;
use reference::{fast, listing, plain};

const STATE: usize = 3248;
/// What buffers hold before.
const ANY: u8 = 0xa5;

// ---- both builds at once

fn open(opening: &mut Opening) -> u8 {
    let mut again = opening.clone();
    let number = opening.make::<plain::State>();
    assert_eq!(again.make::<fast::State>(), number);
    assert!(again == *opening);
    number
}

fn call(buffers: &mut Buffers) -> u8 {
    let mut again = buffers.clone();
    let number = buffers.make::<plain::State>();
    assert_eq!(again.make::<fast::State>(), number);
    assert!(again == *buffers);
    number
}

fn read_out(lent: &mut ReadOut) -> (u8, u64) {
    let (before, mut again) = (lent.clone(), lent.clone());
    let told = lent.make::<plain::State>();
    assert_eq!(again.make::<fast::State>(), told);
    assert!(again == *lent);
    assert!((&before.state, &before.tree) == (&lent.state, &lent.tree));
    told
}

// ---- stores in bytes

/// A call on a fresh store, its tape and trace just long enough.
fn fresh(structure: u8, size: u8, ticket: Ticket, tape: &[u16]) -> Buffers {
    let mut opening = Opening {
        structure: u64::from(structure),
        size: u64::from(size),
        state: vec![ANY; STATE],
        tree: vec![ANY; tree_bytes(size)],
    };
    assert_eq!(open(&mut opening), 0);
    let mut buffers = Buffers {
        state: opening.state,
        tree: opening.tree,
        ticket: vec![],
        tape: vec![],
        trace: vec![ANY; 4 * fetch_rounds(structure, size)],
        result: vec![ANY; 12],
    };
    again(&mut buffers, ticket, tape);
    buffers
}

/// Another call on the same store.
fn again(buffers: &mut Buffers, ticket: Ticket, tape: &[u16]) {
    buffers.ticket = ticket.bytes().to_vec();
    buffers.tape = tape
        .iter()
        .flat_map(|number| number.to_le_bytes())
        .collect();
    buffers.trace.fill(ANY);
    buffers.result.fill(ANY);
}

/// A state of these first 16 bytes, with all places zero.
fn state(head: [u8; 16]) -> Vec<u8> {
    let mut state = head.to_vec();
    state.resize(STATE, 0);
    state
}

/// The paper's worked push.
fn worked_push() -> Buffers {
    fresh(STACK, 2, push(50), &[1, 2, 3])
}

/// A queue of size 2 with this root link and no node in its tree.
fn queue(entries: u8, height: u8, key: u32, ticket: Ticket) -> Buffers {
    let mut buffers = fresh(QUEUE, 2, ticket, &[1, 2, 3, 0]);
    buffers.state[3] = height;
    buffers.state[4] = entries;
    buffers.state[8..12].copy_from_slice(&key.to_le_bytes());
    buffers
}

/// It is refused, and no byte changes.
fn assert_refused(buffers: &Buffers, number: u8) {
    let mut left = buffers.clone();
    assert_eq!(call(&mut left), number);
    assert!(left == *buffers, "{number} changes a byte");
}

// ---- openings

#[test]
fn good_openings() {
    for structure in 1..=4 {
        for size in 1..=8 {
            let mut opening = Opening {
                structure,
                size,
                state: vec![ANY; STATE],
                tree: vec![ANY; 128 * ((2 << size) - 1)],
            };
            assert_eq!(open(&mut opening), 0);
            let mut head = [0; 16];
            [head[1], head[2]] = [structure as u8, size as u8];
            assert!(opening.state == state(head));
            assert!(opening.tree.iter().all(|&byte| byte == 0));
        }
    }
}

/// A closed state with the mark, otherwise zero; the tree is left.
#[test]
fn refused_openings() {
    let good = tree_bytes(2);
    for (structure, size, tree, number) in [
        (0, 2, good, 11),
        (5, 2, good, 11),
        (257, 2, good, 11),
        ((1 << 32) + 1, 2, good, 11),
        (u64::MAX, 2, good, 11),
        (1, 0, good, 12),
        (1, 9, good, 12),
        (1, 258, good, 12),
        (1, (1 << 32) + 2, good, 12),
        (1, 66, good, 12),
        (1, 2, good - 1, 3),
        (1, 2, good + 1, 3),
        (1, 2, 0, 3),
        // The order of check.
        (257, 258, good, 11),
        (0, 2, 0, 11),
        (1, 0, 0, 12),
    ] {
        let mut opening = Opening {
            structure,
            size,
            state: vec![ANY; STATE],
            tree: vec![ANY; tree],
        };
        assert_eq!(open(&mut opening), number);
        let mut head = [0; 16];
        head[0] = number;
        assert!(opening.state == state(head));
        assert!(opening.tree == vec![ANY; tree]);
    }
}

#[test]
fn openings_with_another_state() {
    for length in [0, 1, STATE - 1, STATE + 1, 2 * STATE] {
        for (structure, size, tree) in [(2, 2, 896), (0, 2, 896), (2, 0, 896), (2, 2, 0)] {
            let mut opening = Opening {
                structure,
                size,
                state: vec![ANY; length],
                tree: vec![ANY; tree],
            };
            let before = opening.clone();
            assert_eq!(open(&mut opening), 18);
            assert!(opening == before);
        }
    }
}

// ---- worked calls

#[test]
fn worked_push_and_pop() {
    let mut buffers = worked_push();
    assert_eq!(call(&mut buffers), 0);
    assert!(buffers.state == state([0, 2, 2, 1, 1, 0, 0, 0, 1, 0, 0, 0, 2, 0, 0, 0]));
    let mut tree = vec![0; 896];
    // Flag, key 1, own tag 2, value 50.
    (tree[256], tree[260], tree[272], tree[280]) = (1, 1, 2, 50);
    assert!(buffers.tree == tree);
    assert_eq!(buffers.trace, [1, 0, 3, 0]);
    assert_eq!(buffers.result, [0, 2, 0, 0, 0, 0, 0, 0, 0, 0, 0, 0]);
    again(&mut buffers, pop(), &[0, 1, 1]);
    assert_eq!(call(&mut buffers), 0);
    assert!(buffers.state == state([0, 2, 2, 0, 0, 0, 0, 0, 0, 0, 0, 0, 0, 0, 0, 0]));
    assert!(buffers.tree == vec![0; 896]);
    assert_eq!(buffers.trace, [2, 0, 1, 0]);
    assert_eq!(buffers.result, [1, 2, 1, 0, 50, 0, 0, 0, 0, 0, 0, 0]);
    // Empty: the largest count is 0 again, and there is no value.
    again(&mut buffers, pop(), &[0, 1, 1]);
    assert_eq!(call(&mut buffers), 0);
    assert_eq!(buffers.result, [0, 2, 0, 0, 0, 0, 0, 0, 0, 0, 0, 0]);
}

/// Numbers beyond those that are taken are not read, and places beyond the
/// leaves keep their content.
#[test]
fn longer_tapes_and_traces() {
    let mut buffers = worked_push();
    buffers.tape.extend([0xff; 20]);
    buffers.trace = vec![ANY; 10];
    assert_eq!(call(&mut buffers), 0);
    assert_eq!(buffers.trace, [1, 0, 3, 0, ANY, ANY, ANY, ANY, ANY, ANY]);
    let mut exact = worked_push();
    call(&mut exact);
    assert!((exact.state, exact.tree) == (buffers.state, buffers.tree));
}

/// The greatest value, in all its bytes.
#[test]
fn values_of_eight_bytes() {
    let mut buffers = fresh(STACK, 2, push(0x0807_0605_0403_0201), &[1, 2, 3]);
    call(&mut buffers);
    again(&mut buffers, pop(), &[0, 1, 1]);
    assert_eq!(call(&mut buffers), 0);
    assert_eq!(buffers.result, [1, 2, 1, 0, 1, 2, 3, 4, 5, 6, 7, 8]);
}

/// The 100th push leaves 64 waiting; the 101st gives 9 with leaves 0 0.
#[test]
fn overflow_of_a_stack() {
    let mut buffers = fresh(STACK, 8, push(0), &[0; 3]);
    for value in 0..100 {
        again(&mut buffers, push(value), &[0; 3]);
        assert_eq!(call(&mut buffers), 0);
    }
    assert_eq!(buffers.state[..8], [0, 2, 8, 1, 100, 0, 64, 0]);
    assert_eq!(buffers.result, [0, 2, 64, 0, 0, 0, 0, 0, 0, 0, 0, 0]);
    again(&mut buffers, push(100), &[0; 3]);
    assert_eq!(call(&mut buffers), 9);
    let head = [9, 2, 8, 1, 101, 0, 65, 0, 101, 0, 0, 0, 0, 0, 0, 0];
    assert_eq!(buffers.state[..16], head);
    // The path has 36 slots, so 37 is the first that waits; it links to 36.
    let mut place = [0; 32];
    (place[0], place[1], place[4], place[8], place[24]) = (1, 1, 37, 36, 36);
    assert_eq!(buffers.state[16..48], place);
    assert_eq!(buffers.state[16 + 32 * 64 + 4], 101);
    assert!(buffers.state[16 + 32 * 65..].iter().all(|&byte| byte == 0));
    assert_eq!(buffers.trace, [0, 0, 0, 0]);
    assert_eq!(buffers.result, [0, 2, 65, 0, 0, 0, 0, 0, 0, 0, 0, 0]);
    again(&mut buffers, pop(), &[0; 3]);
    assert_refused(&buffers, 1);
    let mut lent = ReadOut {
        state: buffers.state,
        tree: buffers.tree,
        out: vec![ANY; 1619],
    };
    assert_eq!(read_out(&mut lent), (0, 2 + 16 * 101));
    // 101 entries; key 1, whose value comes after 101 heads; the last byte stays.
    assert_eq!(lent.out[..10], [101, 0, 1, 0, 0, 0, 42, 3, 0, 0]);
    assert_eq!(lent.out[1618], ANY);
}

/// A bad slot on the first path: 8 with one leaf, and the rest as it was.
#[test]
fn damage_in_the_first_round() {
    let mut buffers = worked_push();
    call(&mut buffers);
    buffers.tree[3] = 1;
    let (before, tree) = (buffers.state.clone(), buffers.tree.clone());
    again(&mut buffers, pop(), &[0, 1, 1]);
    assert_eq!(call(&mut buffers), 8);
    assert_eq!(buffers.state[0], 8);
    assert!(buffers.state[1..] == before[1..] && buffers.tree == tree);
    assert_eq!(buffers.trace, [2, 0, ANY, ANY]);
    assert_eq!(buffers.result, [0, 1, 0, 0, 0, 0, 0, 0, 0, 0, 0, 0]);
}

/// A full store's put: 10, all leaves, no value.
#[test]
fn full_map() {
    let zeros = [0; 7];
    let mut buffers = fresh(MAP, 1, put(9, 5), &zeros);
    assert_eq!(call(&mut buffers), 0);
    again(&mut buffers, put(8, 6), &zeros);
    assert_eq!(call(&mut buffers), 10);
    assert_eq!(buffers.trace, [0; 12]);
    assert_eq!(buffers.result[..2], [0, 6]);
    assert_eq!(buffers.result[3..], [0; 9]);
    again(&mut buffers, put(9, 7), &zeros);
    assert_eq!(call(&mut buffers), 0);
    assert_eq!((buffers.result[0], buffers.result[4]), (1, 5));
}

// ---- queues

/// In 7 with draws 1 2 3 0: tag 2, 3 drawn ahead. An empty queue keeps its next
/// unused key as its root key.
#[test]
fn a_queue_and_its_next_key() {
    let mut buffers = fresh(QUEUE, 2, queue_in(7), &[1, 2, 3, 0]);
    assert_eq!(call(&mut buffers), 0);
    assert!(buffers.state == state([0, 4, 2, 1, 1, 0, 0, 0, 0, 0, 0, 0, 2, 0, 3, 0]));
    // In the root bucket, the only one that the paths of 0 and 2 share.
    let mut slot = [0; 32];
    (slot[0], slot[1], slot[8], slot[16], slot[18], slot[24]) = (1, 1, 1, 2, 3, 7);
    assert_eq!(buffers.tree[..32], slot);
    assert_eq!(buffers.trace, [1, 0, 0, 0]);
    again(&mut buffers, queue_out(), &[0; 4]);
    assert_eq!(call(&mut buffers), 0);
    assert!(buffers.state == state([0, 4, 2, 0, 0, 0, 0, 0, 1, 0, 0, 0, 0, 0, 0, 0]));
    assert_eq!(buffers.trace, [2, 0, 0, 0]);
    assert_eq!(buffers.result, [1, 2, 1, 0, 7, 0, 0, 0, 0, 0, 0, 0]);
    // The next one has key 1.
    again(&mut buffers, queue_in(8), &[1, 2, 3, 0]);
    assert_eq!(call(&mut buffers), 0);
    assert!(buffers.state == state([0, 4, 2, 1, 1, 0, 0, 0, 1, 0, 0, 0, 2, 0, 3, 0]));
}

/// It may be any number, and is no part of the root link.
#[test]
fn empty_queues_with_a_root_key() {
    for key in [0, 1, 255, 256, u32::MAX - 1, u32::MAX] {
        let mut buffers = queue(0, 0, key, queue_out());
        let before = buffers.state.clone();
        assert_eq!(call(&mut buffers), 0);
        assert!(buffers.state == before);
        assert_eq!(buffers.result, [0, 2, 0, 0, 0, 0, 0, 0, 0, 0, 0, 0]);
        for (at, byte) in [(3, 1), (12, 1), (13, 1), (14, 1), (15, 1)] {
            let mut buffers = queue(0, 0, key, queue_out());
            buffers.state[at] = byte;
            assert_refused(&buffers, 2);
        }
    }
}

#[test]
fn the_last_key_of_a_queue() {
    let mut buffers = queue(0, 0, u32::MAX - 1, queue_in(7));
    assert_eq!(call(&mut buffers), 0);
    let head = [0, 4, 2, 1, 1, 0, 0, 0, 0xfe, 0xff, 0xff, 0xff, 2, 0, 3, 0];
    assert!(buffers.state == state(head));
    again(&mut buffers, queue_in(8), &[1, 2, 3, 0]);
    assert_refused(&buffers, 17);
    again(&mut buffers, queue_out(), &[0; 4]);
    assert_eq!(call(&mut buffers), 0);
    let head = [0, 4, 2, 0, 0, 0, 0, 0, 0xff, 0xff, 0xff, 0xff, 0, 0, 0, 0];
    assert!(buffers.state == state(head));
    again(&mut buffers, queue_in(8), &[1, 2, 3, 0]);
    assert_refused(&buffers, 17);
    again(&mut buffers, queue_out(), &[0; 4]);
    assert_eq!(call(&mut buffers), 0);
}

/// A sum of root key and entries at the greatest key, and above it.
#[test]
fn key_sums() {
    for entries in 1..=3 {
        let last = u32::MAX - u32::from(entries);
        assert_refused(&queue(entries, 1, last, queue_in(7)), 17);
        // The oldest node is not there.
        assert_eq!(call(&mut queue(entries, 1, last, queue_out())), 8);
        for key in [last + 1, u32::MAX] {
            for ticket in [queue_in(7), queue_out()] {
                assert_refused(&queue(entries, 1, key, ticket), 2);
            }
        }
    }
    // Sums are asked about of no other structure.
    let mut buffers = fresh(MAP, 2, get(3), &[0; 13]);
    buffers.state[..12].copy_from_slice(&[0, 1, 2, 2, 3, 0, 0, 0, 255, 255, 255, 255]);
    assert_eq!(call(&mut buffers), 8);
}

// ---- refusals

#[test]
fn each_refusal_alone() {
    let good = worked_push();
    let refused = |change: fn(&mut Buffers), number: u8| {
        let mut buffers = good.clone();
        change(&mut buffers);
        assert_refused(&buffers, number);
    };
    refused(|lent| lent.state.truncate(STATE - 1), 18);
    refused(|lent| lent.state.push(0), 18);
    refused(|lent| lent.state.clear(), 18);
    refused(|lent| lent.result.truncate(11), 18);
    refused(|lent| lent.result.push(0), 18);
    refused(|lent| lent.result.clear(), 18);
    refused(|lent| lent.tape.push(0), 18);
    refused(|lent| lent.tape.truncate(5), 18);
    refused(|lent| lent.tape.truncate(1), 18);
    refused(|lent| lent.trace.push(0), 18);
    refused(|lent| lent.trace.truncate(3), 18);
    refused(|lent| lent.state[0] = 1, 1);
    refused(|lent| lent.state[0] = 255, 1);
    refused(|lent| lent.state.fill(7), 1);
    refused(|lent| lent.tree.truncate(895), 3);
    refused(|lent| lent.tree.push(0), 3);
    refused(|lent| lent.tree.clear(), 3);
    refused(|lent| lent.ticket.truncate(12), 4);
    refused(|lent| lent.ticket.push(0), 4);
    refused(|lent| lent.ticket.clear(), 4);
    refused(|lent| lent.ticket[0] = 3, 5);
    refused(|lent| lent.ticket[0] = 6, 5);
    refused(|lent| lent.ticket[1] = 1, 19);
    refused(|lent| lent.ticket[4] = 255, 19);
    refused(|lent| lent.ticket[0] = POP, 19);
    refused(|lent| lent.tape.truncate(4), 6);
    refused(|lent| lent.tape.clear(), 6);
    refused(|lent| lent.trace.truncate(2), 7);
    refused(|lent| lent.trace.clear(), 7);
}

/// Bytes of a fresh stack's state that must not be other ones.
#[test]
fn unfit_bytes() {
    for (at, byte) in [
        (1, 0),
        (1, 5),
        (2, 0),
        (2, 9),
        (3, 1),
        (4, 1),
        (5, 1),
        (6, 1),
        (7, 1),
        (8, 1),
        (11, 1),
        (12, 1),
        (14, 1),
        (15, 1),
        (16, 1),
        (47, 1),
        (STATE - 32, 1),
        (STATE - 1, 1),
    ] {
        let mut buffers = worked_push();
        buffers.state[at] = byte;
        assert_refused(&buffers, 2);
    }
}

/// A waiting node within the count, and what makes its place unfit.
#[test]
fn waiting_places() {
    let mut good = worked_push();
    good.state[6] = 1;
    good.state[16..48].copy_from_slice(&plain::write_slot(&leaf_node(7, 3)));
    assert_eq!(call(&mut good.clone()), 0);
    for (at, byte) in [
        (0, 0),
        (0, 2),
        (3, 1),
        (8, 1),
        (15, 1),
        (16, 4),
        (17, 1),
        (18, 1),
        (20, 1),
        (22, 1),
        (23, 1),
    ] {
        let mut buffers = good.clone();
        buffers.state[16 + at] = byte;
        assert_refused(&buffers, 2);
    }
    good.state[16..48].fill(0);
    assert_refused(&good, 2);
    good.state[6] = 0;
    assert_eq!(call(&mut good), 0);
}

/// Each two causes at once: the one that is checked first is returned. The
/// kind 8 of a queue without keys is not foreign, and has no key.
#[test]
fn order_of_two_causes() {
    let mut good = queue(0, 0, 5, queue_in(7));
    assert_eq!(call(&mut good.clone()), 0);
    good.trace.fill(ANY);
    type Change = fn(&mut Buffers);
    let causes: [(u8, Change); 15] = [
        (18, |lent| lent.state.push(0)),
        (18, |lent| lent.result.push(0)),
        (18, |lent| lent.tape.push(0)),
        (18, |lent| lent.trace.push(0)),
        (1, |lent| lent.state[0] = 9),
        (2, |lent| lent.state[STATE - 1] = 1),
        (3, |lent| lent.tree.push(0)),
        (4, |lent| lent.ticket.push(0)),
        (4, |lent| lent.ticket.truncate(12)),
        (5, |lent| lent.ticket[0] = 4),
        (19, |lent| lent.ticket[1] = 1),
        (19, |lent| lent.ticket[4] = 128),
        (17, |lent| lent.state[8..12].fill(255)),
        (6, |lent| lent.tape.truncate(lent.tape.len() - 2)),
        (7, |lent| lent.trace.truncate(lent.trace.len() - 2)),
    ];
    for (number, change) in &causes {
        let others = causes.iter().skip_while(|(other, _)| other != number);
        for (_, second) in others.filter(|(other, _)| other != number) {
            let mut buffers = good.clone();
            second(&mut buffers);
            change(&mut buffers);
            assert_refused(&buffers, *number);
        }
    }
}

// ---- read-outs

fn closed(mark: u8) -> ReadOut {
    let mut buffers = worked_push();
    call(&mut buffers);
    buffers.state[0] = mark;
    ReadOut {
        state: buffers.state,
        tree: buffers.tree,
        out: vec![ANY; 30],
    }
}

#[test]
fn a_file() {
    for mark in [8, 9] {
        let mut lent = closed(mark);
        assert_eq!(read_out(&mut lent), (0, 18));
        let file = [1, 0, 1, 0, 0, 0, 10, 0, 0, 0, 50, 0, 0, 0, 0, 0, 0, 0];
        assert_eq!(lent.out[..18], file);
        assert_eq!(lent.out[18..], [ANY; 12]);
    }
}

/// A bad waiting place and an empty one within the count, and one beyond it.
#[test]
fn a_file_with_a_report() {
    let mut lent = closed(8);
    lent.state[6] = 3;
    lent.state[16] = 2;
    lent.state[16 + 64..16 + 96].copy_from_slice(&plain::write_slot(&leaf_node(1, 0)));
    lent.state[STATE - 1] = 1;
    // A queue with a key sum that is too large is read out too.
    lent.state[1] = 4;
    lent.state[8..12].fill(255);
    lent.out = vec![ANY; 40];
    assert_eq!(read_out(&mut lent), (0, 33));
    assert_eq!(
        lent.out[..18],
        [1, 0, 1, 0, 0, 0, 10, 0, 0, 0, 10, 0, 0, 0, 0, 0, 0, 0]
    );
    // The slot at 256 repeats the waiting node's key; places 896 and 928 are bad.
    assert_eq!(
        lent.out[18..33],
        [0, 1, 0, 0, 2, 128, 3, 0, 0, 1, 160, 3, 0, 0, 1]
    );
    assert_eq!(lent.out[33..], [ANY; 7]);
}

#[test]
fn refused_read_outs() {
    type Change = fn(&mut ReadOut);
    let causes: [(u8, Change); 11] = [
        (18, |lent| lent.state.push(0)),
        (18, |lent| lent.state.truncate(STATE - 1)),
        (14, |lent| lent.state[0] = 0),
        (14, |lent| lent.state[0] = 10),
        (2, |lent| lent.state[1] = 5),
        (2, |lent| lent.state[6] = 102),
        (2, |lent| lent.state[7] = 255),
        (3, |lent| lent.tree.push(0)),
        (3, |lent| lent.tree.clear()),
        (15, |lent| lent.out.truncate(17)),
        (15, |lent| lent.out.clear()),
    ];
    for (number, change) in &causes {
        let others = causes.iter().skip_while(|(other, _)| other != number);
        for (other, second) in others {
            let mut lent = closed(9);
            if other != number {
                second(&mut lent);
            }
            change(&mut lent);
            let before = lent.clone();
            assert_eq!(read_out(&mut lent), (*number, 0));
            assert!(lent == before);
        }
    }
}

// ---- lengths

fn lengths(structure: u64, size: u64) -> [u64; 7] {
    let mut record = Record::Lengths { structure, size };
    let Told::Lengths(lengths) = record.make::<fast::State>() else {
        panic!("lengths are told");
    };
    lengths
}

#[test]
fn lengths_to_lend() {
    assert_eq!(lengths(1, 2), [3248, 896, 13, 26, 24, 12, 2066]);
    assert_eq!(lengths(1, 8), [3248, 65408, 13, 134, 132, 12, 34322]);
    assert_eq!(lengths(2, 1), [3248, 384, 13, 6, 4, 12, 1810]);
    assert_eq!(lengths(3, 8), [3248, 65408, 13, 98, 96, 12, 34322]);
    assert_eq!(lengths(4, 8), [3248, 65408, 13, 8, 4, 12, 34322]);
    for structure in [0, 5, 257, (1 << 32) + 1, u64::MAX] {
        assert_eq!(lengths(structure, 2), [3248, 896, 13, 0, 0, 12, 2066]);
    }
    for size in [0, 9, 65, 257, (1 << 32) + 1, u64::MAX] {
        assert_eq!(lengths(1, size), [3248, 0, 13, 0, 0, 12, 0]);
    }
}

// ---- against calls over numbers

/// Each call means what the one over numbers means, and what it leaves reads
/// back as written.
#[test]
fn grown_stores() {
    let mut random = seeded(70);
    for run in 0..=255 {
        let (structure, size) = (1 + run % 4, 1 + run / 4 % 8);
        let mut pair = Pair::open(structure, size);
        let mut lent = fresh(structure, size, get(0), &[]);
        let tape = [Tape::Uniform, Tape::Few(2), Tape::Zero][random.index(3)];
        for _ in 0..random.below(150) {
            let ticket = match random.one_in(fields::STRAY) {
                true => fields::stray_of(&mut random, structure),
                false => random_ticket(&mut random, structure, size),
            };
            let numbers = tape.numbers(&mut random, tape_length(structure, size));
            again(&mut lent, ticket, &numbers);
            let number = call(&mut lent);
            let (outcome, trace) = pair.call(ticket, &numbers);
            assert_eq!(number, outcome.cause());
            let read = read_state(&lent.state).expect("a state as it was written");
            assert_eq!(
                listing::state_lines(&read),
                listing::state_lines(&pair.plain)
            );
            assert!(read == pair.plain && lent.tree == pair.tree);
            assert!(state_bytes(&read) == lent.state);
            if outcome.leaves > 0 {
                let leaves: Vec<u8> = trace.iter().flat_map(|leaf| leaf.to_le_bytes()).collect();
                assert!(lent.trace[..leaves.len()] == leaves);
                let value = outcome.answer.value();
                assert_eq!(lent.result[0], u8::from(value.is_some()));
                assert_eq!(usize::from(lent.result[1]), outcome.leaves);
                assert_eq!(usize::from(lent.result[2]), outcome.peak);
                assert_eq!(lent.result[4..], value.unwrap_or(0).to_le_bytes());
            } else {
                assert_eq!(lent.result, [ANY; 12]);
            }
        }
    }
}

// ---- records

/// The worked push as a record, and what the driver prints of it.
#[test]
fn a_record() {
    let mut record = Record::Call(worked_push());
    let bytes = record.bytes();
    assert_eq!(bytes[..8], [2, 176, 12, 0, 0, 0, 2, 2]);
    let rest = &bytes[1 + 4 + STATE..];
    assert_eq!(rest[..4], [128, 3, 0, 0]);
    let rest = &rest[4 + 896..];
    assert_eq!(rest[..6], [13, 0, 0, 0, 4, 0]);
    assert_eq!(rest[17..27], [6, 0, 0, 0, 1, 0, 2, 0, 3, 0]);
    assert_eq!(rest[27..31], [4, 0, 0, 0]);
    assert_eq!(rest[35..39], [12, 0, 0, 0]);
    assert_eq!(rest.len(), 51);
    let told = record.make::<plain::State>();
    let printed = record.told_bytes(told);
    assert_eq!(printed[..8], [0, 0, 0, 0, 0, 2, 2, 1]);
    assert_eq!(printed.len(), 4 + STATE + 896 + 13 + 6 + 4 + 12);
    assert_eq!(printed[printed.len() - 16..][..6], [1, 0, 3, 0, 0, 2]);
}

/// As many seeds as tests/compare runs: each branch is met.
#[test]
fn every_branch_of_random_calls_is_met() {
    use reference::lent::{all_branches, branches};
    use std::collections::HashMap;
    let mut met = HashMap::new();
    for seed in 0..2400 {
        for record in records(seed) {
            let mut left = record.clone();
            let told = left.make::<fast::State>();
            for branch in branches(&record, told, &left) {
                *met.entry(branch).or_insert(0) += 1;
            }
        }
    }
    for (group, names) in all_branches() {
        for name in names {
            let count = met.get(&(group, name.clone())).copied().unwrap_or(0);
            assert!(count >= 5, "{group}: {name}: {count}");
        }
    }
}
