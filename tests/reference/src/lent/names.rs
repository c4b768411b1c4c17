//! The branches that the calls of a C host can meet, by group.

use crate::fields;
use crate::paper::*;
use crate::plain::DAMAGE_FOUND;
use crate::stores::STATE_CAUSES;

pub const ENTRIES: &str = "calls from C";
pub const OPENING_NUMBERS: &str = "openings from C by number";
pub const OPENING_PAIRS: &str = "openings from C with two causes";
pub const OPENING_CAUSES: &str = "openings from C refused for one cause";
pub const CALL_NUMBERS: &str = "calls from C by number";
pub const CALL_PAIRS: &str = "calls from C with two causes";
pub const CALL_CAUSES: &str = "calls from C refused for one cause";
pub const FIELDS: &str = "fields of tickets from C";
pub const UNFIT: &str = "states from C unfit for one cause";
pub const ANSWERS: &str = "answers to C";
pub const ANSWERED: &str = "stores that answered C";
pub const RESULTS: &str = "results to C";
pub const LENT: &str = "tapes and traces from C";
pub const FOUND: &str = "damage found in calls from C";
pub const CLOSING: &str = "calls from C that closed their store";
pub const KEYS: &str = "queues called from C";
pub const READ_OUT_NUMBERS: &str = "read-outs to C by number";
pub const READ_OUT_PAIRS: &str = "read-outs to C with two causes";
pub const READ_OUT_CAUSES: &str = "read-outs to C refused for one cause";
pub const FILES: &str = "files to C";
pub const LENGTHS: &str = "lengths told to C";

/// The numbers in the order of check.
const OF_OPENINGS: [u8; 4] = [18, 11, 12, 3];
const OF_CALLS: [u8; 10] = [18, 1, 2, 3, 4, 5, 19, 17, 6, 7];
const OF_READ_OUTS: [u8; 5] = [18, 14, 2, 3, 15];
/// Two causes that no call can have at once: an unknown size has no tree, and
/// of a foreign kind neither fields nor keys are asked about.
const NEVER: [&str; 3] = ["12 and 3", "5 and 19", "5 and 17"];

/// Every branch, by group.
pub fn all_branches() -> Vec<(&'static str, Vec<String>)> {
    vec![
        (
            ENTRIES,
            owned(&[&["openings", "calls", "read-outs", "lengths"]]),
        ),
        (OPENING_NUMBERS, numbers(&[0], &OF_OPENINGS)),
        (OPENING_PAIRS, pairs(&OF_OPENINGS)),
        (
            OPENING_CAUSES,
            owned(&[&OPENING_WORDS, &STATE_WORDS, &TREE_WORDS]),
        ),
        (CALL_NUMBERS, numbers(&[0, 8, 9, 10], &OF_CALLS)),
        (CALL_PAIRS, pairs(&OF_CALLS)),
        (
            CALL_CAUSES,
            owned(&[&STATE_WORDS, &TREE_WORDS, &CALL_WORDS]),
        ),
        (FIELDS, fields::names()),
        (UNFIT, [owned(&[&UNFIT_WORDS]), unfit_roots()].concat()),
        (
            ANSWERS,
            ANSWER_WORDS.map(|(words, ..)| words.to_string()).to_vec(),
        ),
        (ANSWERED, each_store()),
        (RESULTS, owned(&[&RESULT_WORDS])),
        (LENT, owned(&[&LENT_WORDS])),
        (FOUND, damage()),
        (CLOSING, closings()),
        (KEYS, owned(&[&KEY_WORDS])),
        (READ_OUT_NUMBERS, numbers(&[0], &OF_READ_OUTS)),
        (READ_OUT_PAIRS, pairs(&OF_READ_OUTS)),
        (
            READ_OUT_CAUSES,
            owned(&[&STATE_WORDS, &TREE_WORDS, &STATE_CAUSES, &READ_OUT_WORDS]),
        ),
        (FILES, owned(&[&FILE_WORDS])),
        (LENGTHS, owned(&[&LENGTH_WORDS])),
    ]
}

fn owned(rows: &[&[&str]]) -> Vec<String> {
    let words = rows.iter().flat_map(|row| row.iter());
    words.map(|word| word.to_string()).collect()
}

fn numbers(made: &[u8], refused: &[u8]) -> Vec<String> {
    let numbers = made.iter().chain(refused);
    numbers.map(|number| number.to_string()).collect()
}

pub fn pair(one: u8, other: u8) -> String {
    format!("{one} and {other}")
}

fn pairs(order: &[u8]) -> Vec<String> {
    let mut pairs = vec![];
    for (at, one) in order.iter().enumerate() {
        pairs.extend(order[at + 1..].iter().map(|other| pair(*one, *other)));
    }
    pairs.retain(|pair| !NEVER.contains(&&pair[..]));
    pairs
}

fn each_store() -> Vec<String> {
    let stores = (MAP..=QUEUE).flat_map(|structure| (1..=8).map(move |size| (structure, size)));
    stores
        .map(|(structure, size)| store(structure, size))
        .collect()
}

pub fn store(structure: u8, size: u8) -> String {
    format!("{} {size}", STRUCTURES[usize::from(structure) - 1])
}

/// Those of the damage that a round can find.
fn damage() -> Vec<String> {
    let found = DAMAGE_FOUND.iter().flat_map(|(_, branches)| *branches);
    found.map(|(_, name)| name.to_string()).collect()
}

/// How the calls of each structure can close their store.
fn closings() -> Vec<String> {
    let each = |round: &str| STRUCTURES.map(|name| format!("{name}, {round}"));
    let mut names: Vec<String> = CLOSING_ROUNDS.into_iter().flat_map(each).collect();
    names.push(TWO_WAITING.to_string());
    names
}

const CLOSING_ROUNDS: [&str; 4] = [
    "8 in a fetch round",
    "8 in a put round",
    "9 in a fetch round",
    "9 in a put round",
];
pub const TWO_WAITING: &str = "two of one key left waiting";

/// The causes that lie in a root link or tag drawn ahead.
fn unfit_roots() -> Vec<String> {
    let mut names = vec![];
    for structure in STRUCTURES {
        let own: &[&str] = match structure {
            "map" => &["root too low", "root too high", "empty: root key"],
            "queue" => &["root height", "key sum"],
            _ => &["root height", "root key", "empty: root key"],
        };
        let all = own.iter().chain(&UNFIT_OF_ALL);
        names.extend(all.map(|words| format!("{structure}, {words}")));
    }
    names
}

const UNFIT_OF_ALL: [&str; 5] = [
    "root tag",
    "tag drawn ahead",
    "empty: root height",
    "empty: root tag",
    "empty: tag drawn ahead",
];

const UNFIT_WORDS: [&str; 27] = [
    "structure 0",
    "structure 5",
    "structure 255",
    "size 0",
    "size 9",
    "size 255",
    "too many entries",
    "65 waiting",
    "101 waiting",
    "102 waiting",
    "65535 waiting",
    "waiting: empty",
    "waiting: flag",
    "waiting: byte 3",
    "waiting: byte 22",
    "waiting: byte 23",
    "waiting: absent left link with a key",
    "waiting: absent left link with a tag",
    "waiting: absent right link with a key",
    "waiting: absent right link with a tag",
    "waiting: a tag of 2^k",
    "waiting: a greater tag",
    "waiting keys equal",
    "waiting keys falling",
    "first unused place not zero",
    "other unused place not zero",
    "last unused place not zero",
];

const STATE_WORDS: [&str; 4] = [
    "no state",
    "state a byte short",
    "state a byte long",
    "state of another length",
];

const TREE_WORDS: [&str; 7] = [
    "no tree",
    "tree a byte short",
    "tree a byte long",
    "tree a bucket short",
    "tree a bucket long",
    "tree of another size",
    "tree of another length",
];

const OPENING_WORDS: [&str; 13] = [
    "structure 0",
    "structure 5",
    "structure 255",
    "structure 256",
    "structure 257",
    "structure 4294967297",
    "structure 18446744073709551615",
    "size 0",
    "size 9",
    "size 65",
    "size 257",
    "size 4294967297",
    "size 18446744073709551615",
];

const CALL_WORDS: [&str; 27] = [
    "no result",
    "result a byte short",
    "result a byte long",
    "result of another length",
    "odd tape",
    "odd trace",
    "mark 1",
    "mark 8",
    "mark 9",
    "mark 18",
    "mark 255",
    "no ticket",
    "ticket of 12 bytes",
    "ticket of 14 bytes",
    "kind 0",
    "kind 10",
    "kind 255",
    "kind of another structure",
    "stray key",
    "stray value",
    "stray key and value",
    "no tape",
    "tape a number short",
    "no trace",
    "trace a number short",
    "keys used up, queue empty",
    "keys used up, queue with entries",
];

/// The words for a kind's answer, with or without a value.
pub const ANSWER_WORDS: [(&str, u8, bool); 15] = [
    ("get found", GET, true),
    ("get absent", GET, false),
    ("put replaced", PUT, true),
    ("put new", PUT, false),
    ("remove removed", REMOVE, true),
    ("remove absent", REMOVE, false),
    ("push pushed", PUSH, false),
    ("pop popped", POP, true),
    ("pop empty", POP, false),
    ("add added", ADD, false),
    ("take taken", TAKE, true),
    ("take empty", TAKE, false),
    ("in queued", IN, false),
    ("out dequeued", OUT, true),
    ("out empty", OUT, false),
];

const RESULT_WORDS: [&str; 9] = [
    "filled, with a value",
    "filled, with the value 0",
    "filled, without a value",
    "filled, with 8",
    "filled, with 9",
    "filled, with 10",
    "kept",
    "largest count 64",
    "largest count 65",
];

const LENT_WORDS: [&str; 4] = [
    "tape just long enough",
    "tape with more numbers",
    "trace just long enough",
    "trace with more places",
];

const KEY_WORDS: [&str; 10] = [
    "in on a fresh one",
    "in on an emptied one",
    "in behind others",
    "in with the last key on an empty one",
    "in with the last key behind others",
    "out of the last one",
    "out of the last one with no keys left",
    "out before others",
    "out of an emptied one",
    "in on a full one",
];

const READ_OUT_WORDS: [&str; 4] = [
    "no buffer",
    "buffer a byte short",
    "buffer of a byte",
    "buffer much too short",
];

const FILE_WORDS: [&str; 15] = [
    "closed by 8",
    "closed by 9",
    "no entry",
    "entries",
    "some left out",
    "nothing left out",
    "buffer of the file's length",
    "buffer with more room",
    "waiting place with a bad flag",
    "waiting place with a zero byte that is not",
    "empty waiting place",
    "waiting place beyond the count not zero",
    "101 waiting",
    "state that a call would find unfit",
    "key sum of a queue too large",
];

const LENGTH_WORDS: [&str; 9] = [
    "known store",
    "unknown structure",
    "unknown size",
    "both unknown",
    "structure 257",
    "structure 4294967297",
    "size 65",
    "size 257",
    "size 4294967297",
];
