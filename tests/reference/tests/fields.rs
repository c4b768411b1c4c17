//! Cause 19 by hand, on `plain` and `fast` together: a field that the ticket's
//! kind does not use is not zero.

mod common;

use common::*;
use reference::fields;
use reference::inputs::call_bytes;
use reference::paper::*;
use reference::plain::{self, call_by, Rule};
use reference::walk::Program;

/// Each kind's structure, and whether it uses the key and the value.
const BY_HAND: [(u8, u8, bool, bool); 9] = [
    (1, 1, true, false),
    (2, 1, true, true),
    (3, 1, true, false),
    (4, 2, false, true),
    (5, 2, false, false),
    (6, 3, false, true),
    (7, 3, false, false),
    (8, 4, false, true),
    (9, 4, false, false),
];

/// Figures with one byte that is not zero, and others.
const KEYS: [u32; 7] = [0, 1, 256, 1 << 16, 1 << 24, 1 << 31, u32::MAX];
const VALUES: [u64; 9] = [
    0,
    1,
    1 << 8,
    1 << 31,
    1 << 32,
    1 << 40,
    1 << 56,
    1 << 63,
    u64::MAX,
];

/// A store with room and an entry of key 0, or an empty one.
fn stores(structure: u8) -> [Pair; 2] {
    let empty = Pair::open(structure, 2);
    let mut other = empty.clone();
    let ticket = Ticket::new(adding_kind(structure), 0, 5);
    let tape = vec![1; tape_length(structure, 2)];
    assert!(other.answer(ticket, &tape).value().is_none());
    [empty, other]
}

/// Every kind with every choice of figures: 19, or all its leaves.
#[test]
fn each_kind_and_field() {
    for (kind, structure, key_used, value_used) in BY_HAND {
        let tape = vec![2; tape_length(structure, 2)];
        for store in stores(structure) {
            for key in KEYS {
                for value in VALUES {
                    let stray = key != 0 && !key_used || value != 0 && !value_used;
                    let ticket = Ticket::new(kind, key, value);
                    let (outcome, trace) = store.clone().call(ticket, &tape);
                    match stray {
                        true => assert_eq!(outcome, Outcome::refused(19)),
                        false => assert_eq!(trace.len(), 2 * fetch_rounds(structure, 2)),
                    }
                }
            }
        }
    }
}

/// Each of the 12 bytes alone.
#[test]
fn each_byte_alone() {
    for (kind, structure, key_used, value_used) in BY_HAND {
        let tape = vec![2; tape_length(structure, 2)];
        for at in 1..13 {
            let mut ticket = [kind, 0, 0, 0, 0, 0, 0, 0, 0, 0, 0, 0, 0];
            ticket[at] = 128;
            let mut trace = vec![0; tape.len()];
            let outcome = Pair::open(structure, 2).call_with(&ticket, &tape, &mut trace);
            let used = if at <= 4 { key_used } else { value_used };
            assert_eq!(outcome.answer == Answer::Refused(19), !used, "{kind} {at}");
        }
    }
}

/// Another structure's kind is 5, and so is an unknown one, whatever its fields.
#[test]
fn foreign_kinds() {
    for structure in MAP..=QUEUE {
        let tape = vec![0; tape_length(structure, 2)];
        for kind in 0..=255 {
            let own = BY_HAND
                .iter()
                .any(|row| (row.0, row.1) == (kind, structure));
            for (key, value) in [(0, 0), (1, 0), (0, 1), (u32::MAX, u64::MAX)] {
                let answer = Pair::open(structure, 2).answer(Ticket::new(kind, key, value), &tape);
                assert_eq!(answer == Answer::Refused(5), !own);
            }
        }
    }
}

/// An in with a key is 19 and not 17 where the keys are used up, and not 6, 7
/// or 10 either. Without the key it is each of them in turn.
#[test]
fn ahead_of_17() {
    let mut full = Pair::open(QUEUE, 1);
    assert_eq!(full.answer(queue_in(5), &[0; 4]), Answer::Queued);
    let mut used_up = full.clone();
    move_keys(&mut used_up, u32::MAX);
    let (stray, clean) = (Ticket::new(IN, 1, 5).bytes(), queue_in(5).bytes());
    for (store, numbers, places, without) in [
        (&used_up, 4, 2, 17),
        (&used_up, 3, 1, 17),
        (&full, 3, 2, 6),
        (&full, 4, 1, 7),
        (&full, 0, 0, 6),
        (&full, 4, 2, 10),
    ] {
        let call = |ticket: &[u8]| {
            let (tape, mut trace) = (vec![0; numbers], vec![0; places]);
            store.clone().call_with(ticket, &tape, &mut trace).cause()
        };
        assert_eq!((call(&stray), call(&clean)), (19, without));
    }
}

/// What is checked before is returned before.
#[test]
fn after_1_to_4() {
    let stray = Ticket::new(POP, 0, 21).bytes();
    let refused = |change: fn(&mut plain::State, &mut Vec<u8>), ticket: &[u8]| {
        let mut pair = Pair::open(STACK, 2);
        pair.edit(change);
        pair.call_with(ticket, &[0; 3], &mut [0; 2]).cause()
    };
    assert_eq!(refused(|_, _| {}, &stray), 19);
    assert_eq!(refused(|state, _| state.mark = 9, &stray), 1);
    assert_eq!(refused(|state, _| state.root.tag = 1, &stray), 2);
    assert_eq!(refused(|_, tree| tree.truncate(1), &stray), 3);
    assert_eq!(refused(|_, _| {}, &stray[..12]), 4);
}

/// The worked example with stray tickets between: they leave everything, and
/// the pop's leaf is the push's draw 1.
#[test]
fn walk_program() {
    let input = [
        vec![2, 2],
        call_bytes(Ticket::new(PUSH, 1, 50), &[3, 3, 3]),
        call_bytes(push(50), &[1, 2, 3]),
        call_bytes(Ticket::new(POP, 0, 50), &[3, 3, 3]),
        call_bytes(Ticket::new(GET, 0, 50), &[3, 3, 3]),
        call_bytes(pop(), &[0, 1, 1]),
    ]
    .concat();
    let lines = "refused 19\npushed 0 1 3\nrefused 19\nrefused 5\npopped 50 2 1\n";
    assert_eq!(output(Program::Walk, &input), lines);
    let peaks = output(Program::Peaks, &input);
    let last: Vec<&str> = peaks.lines().map(|line| &line[..6]).collect();
    assert_eq!(last, ["last 0", "last 0", "last 0", "last 0", "last 1"]);
}

/// By the rule before, stray fields are ignored.
#[test]
fn the_rule_before() {
    let Pair {
        mut plain,
        mut tree,
        ..
    } = Pair::open(STACK, 2);
    let mut call = |kind, tape: [u16; 3]| {
        let ticket = Ticket::new(kind, 77, 50).bytes();
        let mut trace = [0; 2];
        let rule = Rule::Ignored;
        let (outcome, _) = call_by(rule, &mut plain, &mut tree, &ticket, &tape, &mut trace);
        (outcome.answer, trace)
    };
    assert_eq!(call(PUSH, [1, 2, 3]), (Answer::Pushed, [1, 3]));
    assert_eq!(call(GET, [1, 2, 3]).0, Answer::Refused(5));
    assert_eq!(call(POP, [0, 1, 1]), (Answer::Popped(50), [2, 1]));
}

// ---- random tickets, and what they met

#[test]
fn random_stray_tickets() {
    let mut random = seeded(80);
    for structure in MAP..=QUEUE {
        for _ in 0..1000 {
            let ticket = fields::stray_of(&mut random, structure);
            assert!(kind_fits(structure, ticket.kind) && !ticket.is_clean());
        }
    }
}

#[test]
fn what_tickets_met() {
    let names = fields::names();
    assert_eq!(names.len(), 36 + 12 + 5);
    for (structure, ticket, number, met) in [
        (STACK, pop(), 0, vec!["pop with no figure passes"]),
        (STACK, push(7), 10, vec!["push with a value passes"]),
        (MAP, put(1, 7), 6, vec!["put with a key and a value passes"]),
        (
            STACK,
            Ticket::new(POP, 256, 0),
            19,
            vec!["19 for pop with a key", "19 for byte 2 alone"],
        ),
        (
            QUEUE,
            Ticket::new(IN, 1, 1),
            19,
            vec!["19 for in with a key and a value"],
        ),
        (STACK, Ticket::new(POP, 1, 0), 2, vec![]),
        (
            STACK,
            Ticket::new(POP, 1, 0),
            1,
            vec!["1 for a stray field on a closed store"],
        ),
        (
            MAP,
            Ticket::new(POP, 1, 0),
            5,
            vec!["5 for another structure's kind, stray"],
        ),
        (
            MAP,
            push(1),
            5,
            vec!["5 for another structure's kind, clean"],
        ),
        (
            MAP,
            Ticket::new(10, 0, 1),
            5,
            vec!["5 for an unknown kind, figures"],
        ),
    ] {
        assert_eq!(fields::met(structure, &ticket.bytes(), number), met);
        assert!(met.iter().all(|name| names.contains(&name.to_string())));
    }
}
