//! Reading out closed stores: worked files, bad and repeated nodes, refusals,
//! what a 9 leaves, and `plain` against `fast` on random stores.

mod common;

use common::*;
use reference::paper::*;
use reference::plain::{write_slot, Node, State};
use reference::record::{Record, ZERO_BYTES};
use reference::stores::{branches, trial, BRANCHES};
use reference::{fast, plain, readout, Store};
use std::collections::{BTreeMap, HashSet};

const FILLED: u8 = 165;

fn read_out_by<S: Store>(state: &State, tree: &[u8], room: usize) -> Result<Vec<u8>, u8> {
    let mut output = vec![FILLED; room];
    let result = S::from_plain(state).read_out(tree, &mut output);
    let length = result.unwrap_or(0);
    assert!(output[length..].iter().all(|&byte| byte == FILLED));
    output.truncate(length);
    result.map(|_| output)
}

/// What both builds give, with this much room.
fn read_out_within(state: &State, tree: &[u8], room: usize) -> Result<Vec<u8>, u8> {
    let result = read_out_by::<plain::State>(state, tree, room);
    assert!(result == read_out_by::<fast::State>(state, tree, room));
    result
}

fn read_out(state: &State, tree: &[u8]) -> Vec<u8> {
    read_out_within(state, tree, 40_000).unwrap()
}

/// The bytes of hexadecimal digits; what follows a # in a line is skipped.
fn hex(text: &str) -> Vec<u8> {
    let lines = text.lines().map(|line| line.split('#').next().unwrap());
    lines
        .flat_map(str::split_whitespace)
        .map(|digits| u8::from_str_radix(digits, 16).unwrap())
        .collect()
}

/// The entries and the report of a file.
fn parts(file: &[u8]) -> (BTreeMap<u32, u64>, Vec<(u32, u8)>) {
    let long = |at: usize| u32::from_le_bytes(file[at..at + 4].try_into().unwrap());
    let count = usize::from(u16::from_le_bytes([file[0], file[1]]));
    let mut entries = BTreeMap::new();
    for at in 0..count {
        let offset = long(2 + 8 * at + 4) as usize;
        assert_eq!(offset, 2 + 8 * count + 8 * at);
        let value = u64::from_le_bytes(file[offset..offset + 8].try_into().unwrap());
        let key = long(2 + 8 * at);
        assert!(entries.keys().next_back().is_none_or(|last| *last < key));
        entries.insert(key, value);
    }
    let report = file[2 + 16 * count..].chunks(5);
    let report = report.map(|line| (u32::from_le_bytes(line[..4].try_into().unwrap()), line[4]));
    (entries, report.collect())
}

fn leaf_node(key: u32, tag: u16, value: u64) -> Node {
    Node {
        key,
        tag,
        value,
        left: Link::NONE,
        right: Link::NONE,
    }
}

/// A closed stack with no node.
fn closed(size: u8) -> (State, Vec<u8>) {
    let mut tree = vec![0; tree_bytes(size)];
    let mut state = plain::open(STACK, size, &mut tree);
    state.mark = DAMAGE;
    (state, tree)
}

fn set(tree: &mut [u8], place: usize, node: Node) {
    tree[place..place + SLOT_BYTES].copy_from_slice(&write_slot(&node));
}

// ---- worked files

#[test]
fn nothing_to_read_out() {
    let (state, tree) = closed(1);
    assert_eq!(read_out(&state, &tree), [0, 0]);
}

/// Size 1: bucket 1 at byte 0, bucket 2 (leaf 0) at 128, bucket 3 (leaf 1) at
/// 256; waiting places from 384 on.
#[test]
fn bad_and_repeated_ones_of_size_1() {
    let (mut state, mut tree) = closed(1);
    set(&mut tree, 0, leaf_node(7, 0, 70));
    set(&mut tree, 32, leaf_node(1, 0, 10));
    tree[32] = 2; // a bad flag
    set(&mut tree, 96, leaf_node(5, 1, 50));
    set(&mut tree, 128, leaf_node(7, 0, 71));
    set(&mut tree, 256, leaf_node(9, 0, 90)); // off its path
    tree[320 + 31] = 1; // empty, with a nonzero byte
    state.set_waiting(&[
        leaf_node(5, 0, 55),
        leaf_node(6, 0, 60),
        leaf_node(5, 1, 56),
    ]);
    state.places[1][0] = 0; // empty within the count
    let file = hex("02 00                       # two entries
         05 00 00 00  12 00 00 00    # key 5, its value at byte 18
         07 00 00 00  1a 00 00 00    # key 7, its value at byte 26
         37 00 00 00 00 00 00 00     # 55, of waiting place 0
         46 00 00 00 00 00 00 00     # 70, of byte 0
         20 00 00 00  01             # byte 32: bad
         60 00 00 00  02             # byte 96: key 5 again
         80 00 00 00  02             # byte 128: key 7 again
         00 01 00 00  01             # byte 256: bad
         40 01 00 00  01             # byte 320: bad
         a0 01 00 00  01             # waiting place 1 (384 + 32): bad
         c0 01 00 00  02             # waiting place 2 (384 + 64): key 5 again");
    assert_eq!(read_out(&state, &tree), file);
}

/// A map of size 2, closed by 8: two waiting nodes out of order, the greatest
/// key and value, and three nodes of key 0, of which the lowest place is bad.
#[test]
fn three_of_a_key_of_size_2() {
    let (mut state, mut tree) = closed(2);
    state.structure = MAP;
    set(&mut tree, 0, leaf_node(0, 4, 1)); // tag 4 is no leaf
    set(&mut tree, 64, leaf_node(0, 3, 2));
    set(&mut tree, 256, leaf_node(0, 2, 3)); // bucket 3
    state.set_waiting(&[leaf_node(u32::MAX, 0, u64::MAX), leaf_node(258, 0, 4)]);
    let file = hex("03 00
         00 00 00 00  1a 00 00 00
         02 01 00 00  22 00 00 00
         ff ff ff ff  2a 00 00 00
         02 00 00 00 00 00 00 00
         04 00 00 00 00 00 00 00
         ff ff ff ff ff ff ff ff
         00 00 00 00  01
         00 01 00 00  02");
    assert_eq!(read_out(&state, &tree), file);
}

/// The paper's 101 pushes: 64 waited, the 101st overflows in its put round.
#[test]
fn the_stack_of_101_pushes() {
    let mut pair = Pair::open(STACK, 8);
    for number in 1..=100 {
        assert_eq!(pair.answer(push(number), &[0; 3]), Answer::Pushed);
    }
    assert_eq!(pair.answer(push(101), &[0; 3]), Answer::Refused(OVERFLOW));
    let mut expected = vec![101, 0];
    for number in 1..=101u32 {
        expected.extend(number.to_le_bytes());
        expected.extend((810 + 8 * (number - 1)).to_le_bytes());
    }
    for number in 1..=101u64 {
        expected.extend(number.to_le_bytes());
    }
    assert_eq!(expected.len(), 1618);
    assert!(read_out(&pair.plain, &pair.tree) == expected);
}

/// Size 7: 68 nodes with tag 64 find room in bucket 1 alone, so that 64 wait;
/// the 69th, with tag 0, lies in its leaf bucket. A pop holds it and overflows
/// before its step.
#[test]
fn a_pop_that_overflows_leaves_what_was_there_before() {
    let mut pair = Pair::open(STACK, 7);
    for number in 1..=68 {
        assert_eq!(pair.answer(push(number), &[0, 64, 0]), Answer::Pushed);
    }
    assert_eq!(pair.answer(push(69), &[0; 3]), Answer::Pushed);
    let (outcome, trace) = pair.call(pop(), &[0; 3]);
    assert_eq!(outcome.answer, Answer::Refused(OVERFLOW));
    assert_eq!(trace, [0]);
    let (entries, report) = parts(&read_out(&pair.plain, &pair.tree));
    assert!(entries
        .into_iter()
        .eq((1..=69).map(|key| (key, u64::from(key)))));
    assert_eq!(report, []);
}

/// The 69th push with tag 64 is the first that can overflow at all: 65 wait and
/// bucket 1 is full.
#[test]
fn the_smallest_overflow() {
    let mut pair = Pair::open(STACK, 7);
    for number in 1..=68 {
        assert_eq!(pair.answer(push(number), &[0, 64, 0]), Answer::Pushed);
    }
    assert_eq!(
        pair.answer(push(69), &[0, 64, 0]),
        Answer::Refused(OVERFLOW)
    );
    assert_eq!(parts(&read_out(&pair.plain, &pair.tree)).0.len(), 69);
}

// ---- bad ones

/// Spoils a slot of size 2, a good one of bucket 6 with both links.
type Spoil = fn(&mut [u8]);

const SPOILS: [(&str, Spoil); 17] = [
    ("flag 2", |slot| slot[0] = 2),
    ("flag 255", |slot| slot[0] = 255),
    ("no flag", |slot| slot[0] = 0),
    ("byte 3", |slot| slot[3] = 1),
    ("byte 22", |slot| slot[22] = 1),
    ("byte 23", |slot| slot[23] = 128),
    ("left link's key", |slot| {
        slot[1] = 0;
        slot[18] = 0
    }),
    ("left link's tag", |slot| {
        slot[1] = 0;
        slot[8..12].fill(0)
    }),
    ("right link's key", |slot| {
        slot[2] = 0;
        slot[20] = 0
    }),
    ("right link's tag", |slot| {
        slot[2] = 0;
        slot[12..16].fill(0)
    }),
    ("own tag 4", |slot| slot[16] = 4),
    ("own tag 256", |slot| slot[17] = 1),
    ("left tag 4", |slot| slot[18] = 4),
    ("right tag 4", |slot| slot[20] = 4),
    ("right tag 32768", |slot| slot[21] = 128),
    ("off its path", |slot| slot[16] = 3),
    ("off its path, far", |slot| slot[16] = 0),
];

fn linked_node() -> Node {
    let link = |key: u32, tag: u16| Link {
        height: 255,
        key,
        tag,
    };
    Node {
        left: link(0x0100_0000, 3),
        right: link(1, 3),
        ..leaf_node(5, 2, 50)
    }
}

#[test]
fn each_cause_alone_makes_a_slot_bad() {
    // Bucket 6, slot 3.
    let place = 640 + 96;
    for (name, spoil) in SPOILS {
        let (state, mut tree) = closed(2);
        set(&mut tree, place, linked_node());
        let (entries, report) = parts(&read_out(&state, &tree));
        assert_eq!((entries[&5], report), (50, vec![]));
        spoil(&mut tree[place..place + SLOT_BYTES]);
        let (entries, report) = parts(&read_out(&state, &tree));
        assert_eq!((entries.len(), report), (0, vec![(736, BAD)]), "{name}");
    }
}

#[test]
fn each_byte_makes_an_empty_slot_bad() {
    for at in 1..SLOT_BYTES {
        let (state, mut tree) = closed(1);
        tree[352 + at] = 1;
        assert_eq!(read_out(&state, &tree), hex("00 00  60 01 00 00  01"));
    }
}

#[test]
fn a_waiting_node_is_asked_for_no_bucket() {
    for (name, spoil) in SPOILS {
        let (mut state, tree) = closed(2);
        state.set_waiting(&[linked_node()]);
        spoil(&mut state.places[0]);
        let (entries, report) = parts(&read_out(&state, &tree));
        match name.starts_with("off its path") {
            true => assert_eq!((entries.len(), report), (1, vec![]), "{name}"),
            false => assert_eq!((entries.len(), report), (0, vec![(896, BAD)]), "{name}"),
        }
    }
}

#[test]
fn an_empty_waiting_place_within_the_count_is_bad() {
    let (mut state, tree) = closed(1);
    state.set_waiting(&[leaf_node(5, 0, 50)]);
    state.count = 2;
    state.places[2] = write_slot(&leaf_node(6, 0, 60));
    let (entries, report) = parts(&read_out(&state, &tree));
    assert!(entries.into_iter().eq([(5, 50)]));
    assert_eq!(report, [(384 + 32, BAD)]);
}

/// A bad one's key makes no repeat, and a repeat of it is taken.
#[test]
fn a_bad_one_before_a_good_one() {
    let (mut state, mut tree) = closed(1);
    state.set_waiting(&[leaf_node(5, 2, 1), leaf_node(5, 0, 2)]);
    set(&mut tree, 0, leaf_node(6, 2, 3));
    set(&mut tree, 32, leaf_node(6, 1, 4));
    let (entries, report) = parts(&read_out(&state, &tree));
    assert!(entries.into_iter().eq([(5, 2), (6, 4)]));
    assert_eq!(report, [(0, BAD), (384, BAD)]);
}

// ---- refusals

#[test]
fn refusals_in_order() {
    let (good, tree) = closed(2);
    let longer = vec![0; tree.len() + 1];
    let mut state = good.clone();
    let mut refused = |change: fn(&mut State), tree: &[u8], room: usize| {
        change(&mut state);
        read_out_within(&state, tree, room).map(|file| file.len())
    };
    assert_eq!(refused(|_| {}, &tree, 1), Err(15));
    assert_eq!(refused(|_| {}, &longer, 1), Err(3));
    assert_eq!(refused(|state| state.count = 102, &longer, 1), Err(2));
    assert_eq!(refused(|state| state.mark = 0, &longer, 1), Err(14));
    assert_eq!(refused(|state| state.mark = 9, &longer, 1), Err(2));
    assert_eq!(refused(|state| state.count = 101, &tree, 506), Err(15));
    assert_eq!(refused(|_| {}, &tree, 507), Ok(507));
    assert_eq!(refused(|state| state.count = 0, &tree, 2), Ok(2));
}

#[test]
fn every_mark_structure_size_and_count() {
    let (good, tree) = closed(2);
    for number in 0..=255 {
        let mut state = good.clone();
        state.mark = number;
        let ok = read_out_within(&state, &tree, 2);
        assert_eq!(ok.err(), (!matches!(number, 8 | 9)).then_some(14));
        let mut state = good.clone();
        state.structure = number;
        let ok = read_out_within(&state, &tree, 2);
        assert_eq!(ok.err(), (!matches!(number, 1..=4)).then_some(2));
        let mut state = good.clone();
        state.size = number;
        let ok = read_out_within(&state, &tree, 2);
        let expected = match number {
            2 => None,
            1..=8 => Some(3),
            _ => Some(2),
        };
        assert_eq!(ok.err(), expected);
        let mut state = good.clone();
        state.count = usize::from(number);
        let ok = read_out_within(&state, &tree, 2 + 5 * 101);
        assert_eq!(ok.err(), (number > 101).then_some(2));
    }
}

/// What a call would find unfit is read out all the same.
#[test]
fn an_unfit_state_is_read_out() {
    let (mut state, tree) = closed(1);
    state.entries = 65535;
    state.root = Link {
        height: 9,
        key: 3,
        tag: 700,
    };
    state.ahead = Ahead {
        key: u32::MAX,
        tag: 65535,
    };
    let nodes: Vec<Node> = (0..101).rev().map(|key| leaf_node(key, 1, 7)).collect();
    state.set_waiting(&nodes);
    let (entries, report) = parts(&read_out(&state, &tree));
    assert!(entries.into_iter().eq((0..101).map(|key| (key, 7))));
    assert_eq!(report, []);
}

// ---- what a 9 leaves

/// The plain machines: a table by key, a list with keys from 1 on, a collection,
/// sorted, with keys from 1 on, or a queue, the oldest first.
fn after(contents: &BTreeMap<u32, u64>, ticket: Ticket, size: u8) -> BTreeMap<u32, u64> {
    let mut table = contents.clone();
    let last = table.len() as u32;
    let has_room = last < capacity(size);
    match ticket.kind {
        PUT if has_room || table.contains_key(&ticket.key) => {
            table.insert(ticket.key, ticket.value);
        }
        REMOVE => {
            table.remove(&ticket.key);
        }
        PUSH | ADD if has_room => {
            table.insert(last + 1, ticket.value);
        }
        POP => {
            table.remove(&last);
        }
        TAKE => return sorted(table.into_values().collect::<Vec<_>>(), 1),
        IN if has_room => {
            let next = table.keys().next_back().map_or(0, |key| key + 1);
            table.insert(next, ticket.value);
        }
        OUT => {
            table.pop_first();
        }
        _ => {}
    }
    table
}

fn sorted(mut values: Vec<u64>, skipped: usize) -> BTreeMap<u32, u64> {
    values.sort();
    (1..).zip(values.into_iter().skip(skipped)).collect()
}

#[test]
fn after_a_9_the_contents_are_those_before_or_after_the_call() {
    let mut random = seeded(31);
    let (mut before_met, mut after_met) = (HashSet::new(), HashSet::new());
    for run in 0..120 {
        let structure = [MAP, STACK, HEAP, QUEUE][run % 4];
        let size = 7 + (run / 4 % 2) as u8;
        let Some((store, contents, ticket)) = overflow(&mut random, structure, size) else {
            continue;
        };
        let (entries, report) = parts(&read_out(&store.plain, &store.tree));
        assert_eq!(report, []);
        let canonical = |table: BTreeMap<u32, u64>| match structure {
            HEAP => sorted(table.into_values().collect(), 0),
            QUEUE => (0..).zip(table.into_values()).collect(),
            _ => table,
        };
        assert!(keys_are_right(&entries, &store.plain));
        let found = canonical(entries);
        let was = canonical(contents.clone());
        let is = canonical(after(&was, ticket, size));
        assert!(found == was || found == is);
        if was != is {
            let met = if found == was {
                &mut before_met
            } else {
                &mut after_met
            };
            met.insert(structure);
        }
    }
    println!("before {before_met:?}, after {after_met:?}");
    assert_eq!(after_met.len(), 4);
    assert!(!before_met.is_empty());
}

/// A stack's and a heap's keys run from 1 on, a queue's up to the next unused one.
fn keys_are_right(entries: &BTreeMap<u32, u64>, state: &State) -> bool {
    let (count, next) = (entries.len() as u32, state.ahead.key);
    let keys = entries.keys().copied();
    match state.structure {
        MAP => true,
        QUEUE => keys.eq(next - count..next),
        _ => keys.eq(1..=count),
    }
}

/// A store that its own calls closed with 9, its contents before the last of
/// them, and that one's ticket.
fn overflow(
    random: &mut Random,
    structure: u8,
    size: u8,
) -> Option<(Pair, BTreeMap<u32, u64>, Ticket)> {
    let mut pair = Pair::open(structure, size);
    let mut contents = BTreeMap::new();
    let spare = fetch_rounds(structure, size)..first_put_draw(structure, size);
    let other_tags = random.one_in(2);
    for _ in 0..3 * leaf_count(size) {
        let ticket = match random.one_in(2) {
            true => adding_ticket(random, structure, size),
            false => random_ticket(random, structure, size),
        };
        let mut tape = Tape::Few(1).numbers(random, tape_length(structure, size));
        if other_tags {
            tape[spare.clone()].fill_with(|| random.next() as u16);
        }
        match pair.answer(ticket, &tape) {
            Answer::Refused(OVERFLOW) => return Some((pair, contents, ticket)),
            _ => contents = after(&contents, ticket, size),
        }
    }
    None
}

// ---- random stores, records and programs

#[test]
fn plain_and_fast_agree_on_random_stores() {
    for seed in 0..1920 {
        let Record { state, tree, room } = trial(seed).record;
        let _ = read_out_within(&state, &tree, room);
    }
}

#[test]
fn random_stores_meet_every_branch() {
    let mut met = HashSet::new();
    for seed in 0..3840 {
        let trial = trial(seed);
        let Record { state, tree, room } = &trial.record;
        let result = plain::read_out(state, tree, &mut vec![0; *room]);
        met.extend(branches(&trial, result));
    }
    for (group, names) in BRANCHES {
        for name in names {
            assert!(met.contains(&(group, name.to_string())), "{group}: {name}");
        }
    }
}

/// What the test program's states can hold, and its limits.
#[test]
fn random_stores_keep_the_records_form() {
    for seed in 0..1920 {
        let Record { state, tree, room } = trial(seed).record;
        assert!(tree.len() <= 65536 && room <= 65536 && state.places.len() == PLACES);
        for place in state.places {
            assert!(place[0] <= 1 && ZERO_BYTES.iter().all(|&at| place[at] == 0));
        }
    }
}

/// Every field of a record's head, with two zero bytes before the lengths.
#[test]
fn the_head_of_a_record() {
    let (mut state, tree) = closed(1);
    (state.mark, state.structure, state.entries, state.count) = (9, QUEUE, 0x0201, 3);
    state.root = link(4, 0x0807_0605, 0x0a09);
    state.ahead = Ahead {
        key: 0x0e0d_0c0b,
        tag: 0x100f,
    };
    let record = Record {
        state,
        tree,
        room: 0x1211,
    };
    let head = hex(
        "09 04 01 04  01 02  03 00       # mark to root height, entries, waiting count
         05 06 07 08  09 0a                  # root key, root tag
         0b 0c 0d 0e  0f 10                  # next unused key, tag drawn ahead
         00 00  80 01 00 00  11 12 00 00     # the lengths: a tree of 384 bytes",
    );
    assert_eq!(head.len(), 30);
    let bytes = record.bytes();
    assert_eq!(bytes[..30], head);
    assert_eq!(bytes.len(), 30 + 101 * 32 + 384);
}

#[test]
fn records_read_back() {
    let records: Vec<Record> = (0..64).map(|seed| trial(seed).record).collect();
    let bytes: Vec<u8> = records.iter().flat_map(Record::bytes).collect();
    let mut rest = &bytes[..];
    for record in &records {
        assert!(Record::read(&rest[..rest.len().min(100)]).is_none());
        let (read, after) = Record::read(rest).unwrap();
        assert!(read == *record);
        rest = after;
    }
    assert!(rest.is_empty());
}

fn readout_of<S: Store>(input: &[u8]) -> (Vec<u8>, String) {
    let (mut output, mut errors) = (vec![], vec![]);
    readout::run::<S>(input, &mut output, &mut errors).unwrap();
    (output, String::from_utf8(errors).unwrap())
}

const SHORT: &str = "readout: the input is short\n";
const NO_FILE: &str =
    "readout: no file, 14: the store was not closed by 8 (damage) or 9 (overflow)\n";

#[test]
fn the_readout_program() {
    let mut input = vec![STACK, 8];
    for number in 1..=101 {
        input.extend(reference::inputs::call_bytes(push(number), &[0; 3]));
    }
    let closing = input.len();
    input.extend([4, 4]);
    for length in 0..=input.len() {
        let (file, errors) = readout_of::<fast::State>(&input[..length]);
        let short = length < 2 || length % 19 != 2;
        match length {
            _ if length >= closing => assert_eq!((file.len(), errors.as_str()), (1618, "")),
            _ if short => assert_eq!((file.len(), errors), (0, SHORT.to_string() + NO_FILE)),
            _ => assert_eq!((file.len(), errors.as_str()), (0, NO_FILE)),
        }
    }
    for opening in [[0, 1], [5, 1], [1, 0], [3, 9], [4, 0]] {
        assert_eq!(
            readout_of::<plain::State>(&opening),
            (vec![], NO_FILE.to_string())
        );
    }
}

#[test]
fn the_readout_program_on_random_inputs() {
    let mut files = 0;
    for seed in 0..576 {
        let input = reference::inputs::input(seed);
        let read = readout_of::<plain::State>(&input);
        assert!(read == readout_of::<fast::State>(&input), "seed {seed}");
        assert_eq!(read.0.is_empty(), read.1.ends_with(NO_FILE));
        files += usize::from(!read.0.is_empty());
    }
    assert!(files >= 10, "{files}");
}
