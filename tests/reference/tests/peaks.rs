//! Peaks by hand, on `plain` and `fast` together, and the programs that print
//! them.

mod common;

use common::*;
use reference::inputs::call_bytes;
use reference::paper::*;
use reference::plain::State;
use reference::walk::{Damage, Program};
use std::io::Write;
use std::process::{Command, Stdio};

/// The peaks of calls that have one tape.
fn peaks(pair: &mut Pair, tickets: &[Ticket], tape: &[u16]) -> Vec<usize> {
    let peak = |ticket: &Ticket| pair.call(*ticket, tape).0.peak;
    tickets.iter().map(peak).collect()
}

/// With zero tapes none of so few nodes waits at a close: a peak is the number
/// of nodes that the call fetches.
fn fetched(structure: u8, tickets: &[Ticket]) -> Vec<usize> {
    let tape = vec![0; tape_length(structure, 2)];
    peaks(&mut Pair::open(structure, 2), tickets, &tape)
}

#[test]
fn small_stacks_and_queues() {
    let stack = [pop(), push(5), push(6), pop(), pop(), pop()];
    assert_eq!(fetched(STACK, &stack), [0, 0, 0, 1, 1, 0]);
    let (enter, leave) = (queue_in(5), queue_out());
    let queue = [leave, enter, enter, leave, leave, leave];
    assert_eq!(fetched(QUEUE, &queue), [0, 0, 0, 1, 1, 0]);
}

/// To add fetches position 1, and none when the heap is full. To take fetches 1,
/// 3 and 2; then 1 and 2; then 1.
#[test]
fn small_heaps() {
    let adds = [take(), add(3), add(2), add(1), add(4)];
    let both = [&adds[..], &[take(); 4]].concat();
    assert_eq!(fetched(HEAP, &both), [0, 0, 1, 1, 0, 3, 2, 1, 0]);
}

/// 2 is the root. A full map's put walks as any does. To remove 2 fetches 3, which
/// takes its place.
#[test]
fn small_maps() {
    let puts = [get(7), put(2, 0), put(1, 0), put(3, 0)];
    let gets = [get(2), get(1), get(9), put(3, 1), put(4, 0)];
    let removes = [remove(2), get(1), remove(9), remove(3)];
    let all = [&puts[..], &gets, &removes].concat();
    let expected = [[0, 0, 1, 1].as_slice(), &[1, 2, 2, 2, 2], &[2, 2, 1, 1]];
    assert_eq!(fetched(MAP, &all), expected.concat());
}

/// Size 3, tag 7 and leaf 0: only the root bucket takes four of the nodes, the
/// others wait. Put rounds have the larger numbers.
fn waiting(entries: u64) -> Pair {
    let mut pair = Pair::open(STACK, 3);
    for value in 0..entries {
        pair.call(push(value), &[0, 7, 0]);
    }
    pair
}

#[test]
fn nodes_that_wait() {
    let mut pair = Pair::open(STACK, 3);
    let tickets = [push(1); 8];
    assert_eq!(
        peaks(&mut pair, &tickets, &[0, 7, 0]),
        [0, 0, 0, 0, 1, 2, 3, 3]
    );
    // The path of leaf 7 takes all of them but the top, which is held.
    assert_eq!(peaks(&mut pair, &[pop(), pop()], &[0; 3]), [1, 1]);
}

/// A pop's number at its fetch round's close counts the node that it takes out.
#[test]
fn held_and_waiting() {
    let mut pair = waiting(6);
    assert_eq!(pair.call(push(7), &[0; 3]).0.peak, 2);
    assert_eq!(pair.call(pop(), &[1, 1, 1]).0.peak, 3);
    assert_eq!(pair.plain.count, 2);
}

/// 68 nodes leave 64 waiting, and one with tag 0 finds room. To take it out makes
/// one too many.
#[test]
fn overflow_in_a_fetch_round() {
    let mut pair = Pair::open(STACK, 8);
    for value in 1..=68usize {
        let (outcome, _) = pair.call(push(value as u64), &[0, 255, 0]);
        assert_eq!(outcome.peak, value.saturating_sub(4));
    }
    assert_eq!(pair.call(push(69), &[0; 3]).0.peak, 64);
    let (outcome, trace) = pair.call(pop(), &[9, 0, 1]);
    assert_eq!((outcome.answer, trace), (Answer::Refused(9), vec![0]));
    assert_eq!(outcome.peak, 65);
    for ticket in [pop(), push(70), get(1)] {
        assert_eq!(pair.call(ticket, &[0; 3]).0, Outcome::refused(1));
    }
}

/// A stack or queue with 64 nodes waiting.
fn crowded(structure: u8) -> Pair {
    let mut pair = Pair::open(structure, 8);
    let tape = vec![0; tape_length(structure, 8)];
    for _ in 0..100 {
        pair.call(Ticket::new(adding_kind(structure), 0, 5), &tape);
    }
    assert_eq!(pair.plain.count, 64);
    pair
}

/// Nodes wait, but no round closes.
#[test]
fn refusals() {
    let refused = |mut pair: Pair, ticket: &[u8], numbers: usize, places: usize| {
        let outcome = pair.call_with(ticket, &vec![0; numbers], &mut vec![0; places]);
        assert_eq!(outcome.peak, 0);
        outcome.answer.number()
    };
    let whole = crowded(STACK);
    let ticket = push(5).bytes();
    assert_eq!(refused(whole.clone(), &ticket[..12], 3, 2), 4);
    assert_eq!(refused(whole.clone(), &get(5).bytes(), 3, 2), 5);
    let stray = Ticket::new(POP, 1, 0).bytes();
    assert_eq!(refused(whole.clone(), &stray, 3, 2), 19);
    assert_eq!(refused(whole.clone(), &ticket, 2, 2), 6);
    assert_eq!(refused(whole.clone(), &ticket, 3, 1), 7);
    let edits: [fn(&mut State, &mut Vec<u8>); 3] = [
        |state, _| state.mark = 3,
        |state, _| state.entries = 99,
        |_, tree| tree.truncate(128),
    ];
    for (cause, edit) in (1..).zip(edits) {
        let mut pair = whole.clone();
        pair.edit(edit);
        assert_eq!(refused(pair, &ticket, 3, 2), cause);
    }
    let mut queue = crowded(QUEUE);
    move_keys(&mut queue, u32::MAX);
    assert_eq!(refused(queue, &queue_in(5).bytes(), 4, 2), 17);
}

/// A round that finds damage does not close, however many wait.
#[test]
fn damage_in_the_first_round() {
    for ticket in [push(5), pop()] {
        let mut pair = waiting(7);
        pair.edit(|_, tree| tree[0] = 2);
        let (outcome, trace) = pair.call(ticket, &[0; 3]);
        assert_eq!((outcome.answer, trace.len()), (Answer::Refused(8), 1));
        assert_eq!((outcome.peak, pair.plain.count), (0, 3));
    }
}

/// Leaf 1's bucket is bad, which the put round meets: the third node waits when
/// no round closes any more.
#[test]
fn damage_in_a_put_round() {
    let mut pair = waiting(6);
    pair.edit(|_, tree| tree[128 * 8] = 2);
    let (outcome, trace) = pair.call(push(5), &[0, 7, 1]);
    assert_eq!((outcome.answer, trace), (Answer::Refused(8), vec![0, 1]));
    assert_eq!((outcome.peak, pair.plain.count), (2, 3));
}

/// A map of size 8 whose nodes lie on the path of leaf 0: a get of each key with
/// the bucket of leaf 5 bad, which an idle fetch round meets. Those that were
/// fetched are held till then.
#[test]
fn damage_in_a_later_fetch_round() {
    let mut tape = vec![0; tape_length(MAP, 8)];
    let mut whole = Pair::open(MAP, 8);
    peaks(
        &mut whole,
        &[put(2, 0), put(1, 0), put(3, 0), put(4, 0)],
        &tape,
    );
    whole.edit(|_, tree| tree[128 * 260] = 2);
    tape[32] = 5;
    for (key, fetched) in [(2, 1), (1, 2), (3, 2), (4, 3)] {
        let mut pair = whole.clone();
        let (outcome, trace) = pair.call(get(key), &tape);
        assert_eq!((outcome.answer, trace.len()), (Answer::Refused(8), 33));
        assert_eq!(outcome.peak, fetched);
    }
}

// ---- the programs

const OPENINGS: [(&[u8], &str); 6] = [
    (&[], "short\n"),
    (&[2], "short\n"),
    (&[0, 2, 1], "refused 11\n"),
    (&[5, 0], "refused 11\n"),
    (&[1, 9, 0], "refused 12\n"),
    (&[4, 2], ""),
];

fn program_output(program: &str, build: &[&str], input: &[u8]) -> String {
    let mut program = Command::new(program)
        .args(build)
        .stdin(Stdio::piped())
        .stdout(Stdio::piped())
        .spawn()
        .unwrap();
    program.stdin.take().unwrap().write_all(input).unwrap();
    String::from_utf8(program.wait_with_output().unwrap().stdout).unwrap()
}

/// The output for each start of an input: records of this length follow the
/// opening, each with its lines.
fn test_starts(program: Program, input: &[u8], length: usize, lines: &[&str]) {
    for end in 2..=input.len() {
        let whole = (end - 2) / length;
        let short = ["short\n", ""][usize::from((end - 2) % length == 0)];
        let expected = lines[..whole].concat() + short;
        assert_eq!(output(program, &input[..end]), expected, "{end}");
    }
    for (opening, expected) in OPENINGS {
        assert_eq!(output(program, opening), expected);
    }
}

#[test]
fn peaks_program() {
    let input = [
        vec![2, 2],
        call_bytes(push(50), &[1, 2, 3]),
        call_bytes(pop(), &[0, 1, 1]),
        call_bytes(get(1), &[0, 1, 1]),
        call_bytes(push(60), &[1, 2, 3]),
    ]
    .concat();
    let lines = [
        "last 0 largest 0 limit 64\n",
        "last 1 largest 1 limit 64\n",
        "last 0 largest 1 limit 64\n",
        "last 0 largest 1 limit 64\n",
    ];
    test_starts(Program::Peaks, &input, 19, &lines);
    for build in [&[][..], &["fast"]] {
        let printed = program_output(env!("CARGO_BIN_EXE_peaks"), build, &input);
        assert_eq!(printed, lines.concat());
    }
}

/// A call of `damaged_calls`.
fn damaged_call(ticket: Ticket, tape: &[u16], place: u32, amount: u8) -> Vec<u8> {
    [
        &call_bytes(ticket, tape)[..],
        &Damage { place, amount }.bytes(),
    ]
    .concat()
}

/// The node lies at byte 256, in a tree of 896 bytes. Its value's lowest byte
/// grows by 255, the next one's by 206, the third one's flag by 1; the last two by
/// way of places beyond the tree.
#[test]
fn damaged_calls_program() {
    let input = [
        vec![2, 2],
        damaged_call(push(50), &[1, 2, 3], 896, 0),
        damaged_call(pop(), &[0, 1, 1], 280, 255),
        damaged_call(push(50), &[1, 2, 3], 7, 0),
        damaged_call(pop(), &[0, 1, 1], 280 + 896 * 4_000_000, 206),
        damaged_call(push(50), &[1, 2, 3], 0, 0),
        damaged_call(pop(), &[0, 1, 1], 256 + 896, 1),
        damaged_call(push(50), &[1, 2, 3], 256 + 896, 255),
    ]
    .concat();
    let lines = [
        "pushed 0 1 3\nlast 0 largest 0 limit 64\n",
        "popped 49 2 1\nlast 1 largest 1 limit 64\n",
        "pushed 0 1 3\nlast 0 largest 1 limit 64\n",
        "popped 0 2 1\nlast 1 largest 1 limit 64\n",
        "pushed 0 1 3\nlast 0 largest 1 limit 64\n",
        "refused 8 2\nlast 0 largest 1 limit 64\n",
        "refused 1\nlast 0 largest 1 limit 64\n",
    ];
    test_starts(Program::DamagedCalls, &input, 24, &lines);
    for build in [&[][..], &["fast"]] {
        let printed = program_output(env!("CARGO_BIN_EXE_damaged_calls"), build, &input);
        assert_eq!(printed, lines.concat());
    }
}
