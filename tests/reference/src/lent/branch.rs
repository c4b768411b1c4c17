//! What the calls of a C host met, for the random runs to count: told from the
//! bytes before and after.

use super::names::*;
use super::record::{Buffers, Opening, ReadOut, Record, Told};
use super::{at, cause, get};
use crate::fields;
use crate::host::{read_state, RESULT_BYTES, STATE_BYTES};
use crate::paper::*;
use crate::plain::call_and_met;
use crate::stores::branch::length_cause;

/// A group and a name.
pub type Name = (&'static str, String);

/// The branches that a record met, with what it told and left.
pub fn branches(before: &Record, told: Told, after: &Record) -> Vec<Name> {
    let (entry, mut met) = match (before, told, after) {
        (Record::Open(opening), Told::Number(number), _) => {
            ("openings", of_opening(opening, number))
        }
        (Record::Call(lent), Told::Number(number), Record::Call(left)) => {
            ("calls", of_call(lent, number, left))
        }
        (Record::ReadOut(lent), Told::File(number, length), Record::ReadOut(left)) => (
            "read-outs",
            of_read_out(lent, number, length as usize, left),
        ),
        (Record::Lengths { structure, size }, ..) => ("lengths", of_lengths(*structure, *size)),
        _ => panic!("each entry tells its own"),
    };
    met.push((ENTRIES, entry.to_string()));
    met
}

fn named<const N: usize>(group: &'static str, facts: [(bool, &str); N]) -> Vec<Name> {
    let facts = facts.into_iter().filter(|(holds, _)| *holds);
    facts.map(|(_, name)| (group, name.to_string())).collect()
}

/// The number, and two causes that hold at once.
fn of_causes(groups: [&'static str; 2], number: u8, causes: &[u8]) -> Vec<Name> {
    let mut met = vec![(groups[0], number.to_string())];
    if let [one, other] = *causes {
        met.push((groups[1], pair(one, other)));
    }
    met
}

// ---- lengths in words

fn state_words(length: usize) -> String {
    match length {
        0 => "no state",
        _ if length + 1 == STATE_BYTES => "state a byte short",
        _ if length == STATE_BYTES + 1 => "state a byte long",
        _ => "state of another length",
    }
    .to_string()
}

fn tree_words(length: usize, size: u8) -> String {
    length_cause(length, size).unwrap_or("tree of another length".to_string())
}

fn result_words(length: usize) -> String {
    match length {
        0 => "no result",
        11 => "result a byte short",
        13 => "result a byte long",
        _ => "result of another length",
    }
    .to_string()
}

/// Of a tape or trace with too few numbers.
fn short_words(name: &str, numbers: usize, least: usize) -> String {
    match numbers {
        0 => format!("no {name}"),
        _ if numbers + 1 == least => format!("{name} a number short"),
        _ => format!("{name} of {numbers}"),
    }
}

// ---- openings and lengths

fn of_opening(opening: &Opening, number: u8) -> Vec<Name> {
    let causes = cause::of_opening(opening);
    assert_eq!(causes.first().copied().unwrap_or(0), number);
    let mut met = of_causes([OPENING_NUMBERS, OPENING_PAIRS], number, &causes);
    let words = match causes[..] {
        [18, ..] => state_words(opening.state.len()),
        [11] => format!("structure {}", opening.structure),
        [12] => format!("size {}", opening.size),
        [3] => tree_words(opening.tree.len(), opening.size as u8),
        _ => return met,
    };
    met.push((OPENING_CAUSES, words));
    met
}

fn of_lengths(structure: u64, size: u64) -> Vec<Name> {
    let known = ((1..=4).contains(&structure), (1..=8).contains(&size));
    let words = match known {
        (true, true) => "known store".to_string(),
        (false, true) => "unknown structure".to_string(),
        (true, false) => "unknown size".to_string(),
        (false, false) => "both unknown".to_string(),
    };
    let numbers = [format!("structure {structure}"), format!("size {size}")];
    let words = [words].into_iter().chain(numbers);
    words.map(|words| (LENGTHS, words)).collect()
}

// ---- calls

fn of_call(lent: &Buffers, number: u8, left: &Buffers) -> Vec<Name> {
    let causes = cause::of_call(lent);
    let mut met = of_causes([CALL_NUMBERS, CALL_PAIRS], number, &causes);
    if number != 18 {
        let words = fields::met(lent.state[at::STRUCTURE], &lent.ticket, number);
        met.extend(words.into_iter().map(|words| (FIELDS, words)));
    }
    if let Some(first) = causes.first() {
        assert!(number == *first && lent == left);
        met.push((RESULTS, "kept".to_string()));
    } else {
        assert!(matches!(number, 0 | 8 | 9 | 10));
        met.extend(of_made(lent, number, left));
    }
    match causes[..] {
        [2] => met.extend(only(cause::unfit(&lent.state)).map(|words| (UNFIT, words))),
        [18, ..] => met.extend(only(wrong_lengths(lent)).map(|words| (CALL_CAUSES, words))),
        [one] => met.push((CALL_CAUSES, call_words(lent, one))),
        _ => {}
    }
    met
}

/// The only one of some.
fn only(mut words: Vec<String>) -> Option<String> {
    words.pop().filter(|_| words.is_empty())
}

/// The only cause of a call's refusal, but for 18 and 2.
fn call_words(lent: &Buffers, number: u8) -> String {
    let state = &lent.state;
    match number {
        1 => format!("mark {}", state[at::MARK]),
        3 => tree_words(lent.tree.len(), state[at::SIZE]),
        4 if lent.ticket.is_empty() => "no ticket".to_string(),
        4 => format!("ticket of {} bytes", lent.ticket.len()),
        5 => match lent.ticket[0] {
            GET..=OUT => "kind of another structure".to_string(),
            kind => format!("kind {kind}"),
        },
        19 => stray_words(&lent.ticket),
        17 => match get(state, at::ENTRIES, 2) {
            0 => "keys used up, queue empty".to_string(),
            _ => "keys used up, queue with entries".to_string(),
        },
        6 => short_words("tape", lent.tape.len() / 2, tape_numbers(state)),
        _ => short_words("trace", lent.trace.len() / 2, trace_places(state)),
    }
}

fn stray_words(ticket: &[u8]) -> String {
    let ticket = Ticket::read(ticket);
    let clean = ticket.cleaned();
    match (ticket.key != clean.key, ticket.value != clean.value) {
        (true, true) => "stray key and value",
        (true, false) => "stray key",
        _ => "stray value",
    }
    .to_string()
}

fn tape_numbers(state: &[u8]) -> usize {
    tape_length(state[at::STRUCTURE], state[at::SIZE])
}

fn trace_places(state: &[u8]) -> usize {
    2 * fetch_rounds(state[at::STRUCTURE], state[at::SIZE])
}

fn wrong_lengths(lent: &Buffers) -> Vec<String> {
    let mut words = vec![];
    if lent.state.len() != STATE_BYTES {
        words.push(state_words(lent.state.len()));
    }
    if lent.result.len() != RESULT_BYTES {
        words.push(result_words(lent.result.len()));
    }
    if lent.tape.len() % 2 == 1 {
        words.push("odd tape".to_string());
    }
    if lent.trace.len() % 2 == 1 {
        words.push("odd trace".to_string());
    }
    words
}

/// A call that revealed a leaf.
fn of_made(lent: &Buffers, number: u8, left: &Buffers) -> Vec<Name> {
    let (structure, size) = (lent.state[at::STRUCTURE], lent.state[at::SIZE]);
    let mut met = of_result(number, &left.result);
    met.extend(of_lent(lent));
    if number == 0 {
        met.push((ANSWERED, store(structure, size)));
        let answer = (lent.ticket[0], left.result[0] == 1);
        let words = ANSWER_WORDS
            .iter()
            .find(|(_, kind, value)| (*kind, *value) == answer);
        let (words, ..) = words.expect("each answer has words");
        met.push((ANSWERS, words.to_string()));
    }
    if matches!(number, 8 | 9) {
        met.extend(of_closing(number, left));
    }
    if number == 8 {
        met.push((FOUND, damage_found(lent)));
    }
    if structure == QUEUE && matches!(number, 0 | 10) {
        met.extend(of_queue(lent, number));
    }
    met
}

fn of_closing(number: u8, left: &Buffers) -> Vec<Name> {
    let state = &left.state;
    let (structure, size) = (state[at::STRUCTURE], state[at::SIZE]);
    let name = STRUCTURES[usize::from(structure) - 1];
    let fetching = usize::from(left.result[1]) <= fetch_rounds(structure, size);
    let round = if fetching { "fetch" } else { "put" };
    let mut words = vec![format!("{name}, {number} in a {round} round")];
    let waiting = get(state, at::WAITING, 2) as usize;
    let places = state[at::PLACES..].chunks(SLOT_BYTES).take(waiting);
    let keys: Vec<u64> = places.map(|place| get(place, 4, 4)).collect();
    if keys.windows(2).any(|pair| pair[0] == pair[1]) {
        words.push(TWO_WAITING.to_string());
    }
    words.into_iter().map(|words| (CLOSING, words)).collect()
}

fn of_result(number: u8, result: &[u8]) -> Vec<Name> {
    let value = get(result, 4, 8);
    let filled = match (number, result[0], value) {
        (0, 1, 0) => "filled, with the value 0".to_string(),
        (0, 1, _) => "filled, with a value".to_string(),
        (0, ..) => "filled, without a value".to_string(),
        _ => format!("filled, with {number}"),
    };
    let largest = format!("largest count {}", result[2]);
    vec![(RESULTS, filled), (RESULTS, largest)]
}

fn of_lent(lent: &Buffers) -> Vec<Name> {
    let more_tape = lent.tape.len() > 2 * tape_numbers(&lent.state);
    let more_trace = lent.trace.len() > 2 * trace_places(&lent.state);
    named(
        LENT,
        [
            (!more_tape, "tape just long enough"),
            (more_tape, "tape with more numbers"),
            (!more_trace, "trace just long enough"),
            (more_trace, "trace with more places"),
        ],
    )
}

/// What a call that gave 8 found, as `plain` tells it.
fn damage_found(lent: &Buffers) -> String {
    let numbers = |bytes: &[u8]| -> Vec<u16> {
        let pairs = bytes.chunks(2);
        pairs.map(|pair| get(pair, 0, 2) as u16).collect()
    };
    let mut state = read_state(&lent.state).expect("a state that fits");
    let (tape, mut trace) = (numbers(&lent.tape), numbers(&lent.trace));
    let mut tree = lent.tree.clone();
    let (_, met) = call_and_met(&mut state, &mut tree, &lent.ticket, &tape, &mut trace);
    let found = met.branches.last().expect("damage was found");
    found.name().1.to_string()
}

fn of_queue(lent: &Buffers, number: u8) -> Vec<Name> {
    let entries = get(&lent.state, at::ENTRIES, 2);
    let next = get(&lent.state, at::ROOT_KEY, 4) + entries;
    let (comes, full) = (lent.ticket[0] == IN, number == 10);
    let queued = comes && !full;
    let (last, none_left) = (next == u64::from(u32::MAX) - 1, next == u64::from(u32::MAX));
    named(
        KEYS,
        [
            (queued && next == 0, "in on a fresh one"),
            (queued && entries == 0 && next > 0, "in on an emptied one"),
            (queued && entries > 0, "in behind others"),
            (
                queued && last && entries == 0,
                "in with the last key on an empty one",
            ),
            (
                queued && last && entries > 0,
                "in with the last key behind others",
            ),
            (!comes && entries == 1, "out of the last one"),
            (
                !comes && entries == 1 && none_left,
                "out of the last one with no keys left",
            ),
            (!comes && entries > 1, "out before others"),
            (!comes && entries == 0 && next > 0, "out of an emptied one"),
            (full, "in on a full one"),
        ],
    )
}

// ---- read-outs

fn of_read_out(lent: &ReadOut, number: u8, length: usize, left: &ReadOut) -> Vec<Name> {
    let causes = cause::of_read_out(lent, number);
    assert_eq!(causes.first().copied().unwrap_or(0), number);
    let mut met = of_causes([READ_OUT_NUMBERS, READ_OUT_PAIRS], number, &causes);
    match causes[..] {
        [] => met.extend(of_file(lent, length, &left.out)),
        [18, ..] => met.push((READ_OUT_CAUSES, state_words(lent.state.len()))),
        [one] => met.push((READ_OUT_CAUSES, read_out_words(lent, one))),
        _ => {}
    }
    met
}

fn read_out_words(lent: &ReadOut, number: u8) -> String {
    let state = &lent.state;
    let (structure, size) = (state[at::STRUCTURE], state[at::SIZE]);
    match number {
        14 => format!("mark {}", state[at::MARK]),
        2 if !structure_is_known(structure) => format!("structure {structure}"),
        2 if !size_is_known(size) => format!("size {size}"),
        2 => format!("{} waiting", get(state, at::WAITING, 2)),
        3 => tree_words(lent.tree.len(), size),
        _ => room_words(lent),
    }
}

fn room_words(lent: &ReadOut) -> String {
    let mut whole = lent.clone();
    whole.out = vec![0; super::MOST_FILE];
    let (_, length) = whole.make::<crate::fast::State>();
    match lent.out.len() {
        0 => "no buffer",
        1 => "buffer of a byte",
        room if room + 1 == length as usize => "buffer a byte short",
        _ => "buffer much too short",
    }
    .to_string()
}

fn of_file(lent: &ReadOut, length: usize, out: &[u8]) -> Vec<Name> {
    let state = &lent.state;
    let entries = get(out, 0, 2) as usize;
    let all_taken = length == 2 + 16 * entries;
    let sum = get(state, at::ROOT_KEY, 4) + get(state, at::ENTRIES, 2);
    let too_large = state[at::STRUCTURE] == QUEUE && sum > u64::from(u32::MAX);
    let facts = [
        (state[at::MARK] == 8, "closed by 8"),
        (state[at::MARK] == 9, "closed by 9"),
        (entries == 0, "no entry"),
        (entries > 0, "entries"),
        (!all_taken, "some left out"),
        (all_taken, "nothing left out"),
        (out.len() == length, "buffer of the file's length"),
        (out.len() > length, "buffer with more room"),
        (
            !cause::unfit(state).is_empty(),
            "state that a call would find unfit",
        ),
        (too_large, "key sum of a queue too large"),
    ];
    let mut met = named(FILES, facts);
    met.extend(of_places(state));
    met
}

/// What stands in the waiting places of a store that is read out.
fn of_places(state: &[u8]) -> Vec<Name> {
    let waiting = get(state, at::WAITING, 2) as usize;
    let places: Vec<&[u8]> = state[at::PLACES..].chunks(SLOT_BYTES).collect();
    let (used, beyond) = places.split_at(waiting);
    let zero_byte = |place: &&[u8]| place[0] == 1 && place[3] | place[22] | place[23] != 0;
    let facts = [
        (
            used.iter().any(|place| place[0] > 1),
            "waiting place with a bad flag",
        ),
        (
            used.iter().any(zero_byte),
            "waiting place with a zero byte that is not",
        ),
        (
            used.iter().any(|place| place[0] == 0),
            "empty waiting place",
        ),
        (
            beyond.concat().iter().any(|&byte| byte != 0),
            "waiting place beyond the count not zero",
        ),
        (waiting == PLACES, "101 waiting"),
    ];
    named(FILES, facts)
}
