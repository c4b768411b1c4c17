//! What a read-out can meet, for the random runs to count: told from the store
//! and the result alone.

use super::Trial;
use crate::paper::*;
use crate::plain::{passes, read_slot, Reading, State};
use crate::record::{Record, ZERO_BYTES};
use std::collections::BTreeMap;

/// The branches by group.
pub const BRANCHES: [(&str, &[&str]); 8] = [
    (NUMBERS, &["file", "14", "2", "3", "15"]),
    (ORDER, &OF_ORDER),
    (CAUSES, &STATE_CAUSES),
    (CAUSES, &OTHER_CAUSES),
    (STORES, &OF_STORES),
    (FILES, &OF_FILES),
    (BADS, &OF_BADS),
    (REPEATS, &OF_REPEATS),
];

const NUMBERS: &str = "read-outs by number";
const ORDER: &str = "read-outs with two causes";
const CAUSES: &str = "read-outs refused for one cause";
const STORES: &str = "stores read out";
const FILES: &str = "files read out";
const BADS: &str = "left out as bad for one cause";
const REPEATS: &str = "keys of several nodes";

const OF_ORDER: [&str; 6] = [
    "14 and 2",
    "14 and 3",
    "14 and 15",
    "2 and 3",
    "2 and 15",
    "3 and 15",
];

/// What a state can be refused for, one for each cause that is tried.
pub const STATE_CAUSES: [&str; 16] = [
    "mark 0",
    "mark 1",
    "mark 3",
    "mark 7",
    "mark 10",
    "mark 11",
    "mark 12",
    "mark 255",
    "structure 0",
    "structure 5",
    "structure 255",
    "size 0",
    "size 9",
    "size 255",
    "102 waiting",
    "65535 waiting",
];

const OTHER_CAUSES: [&str; 9] = [
    "tree a byte short",
    "tree a byte long",
    "tree a bucket short",
    "tree a bucket long",
    "tree of another size",
    "no tree",
    "buffer a byte short",
    "buffer much too short",
    "no buffer",
];

const OF_STORES: [&str; 29] = [
    "map closed by 8",
    "map closed by 9",
    "stack closed by 8",
    "stack closed by 9",
    "heap closed by 8",
    "heap closed by 9",
    "queue closed by 8",
    "queue closed by 9",
    "size 1",
    "size 2",
    "size 3",
    "size 4",
    "size 5",
    "size 6",
    "size 7",
    "size 8",
    "none waiting",
    "1 waiting",
    "64 waiting",
    "65 waiting",
    "101 waiting",
    "every place full",
    "entries beyond the size",
    "root link unfit",
    "tag drawn ahead unfit",
    "next unused key of no queue",
    "waiting keys not ascending",
    "nonzero place beyond the count",
    "good node beyond the count",
];

const OF_FILES: [&str; 9] = [
    "no entry, nothing left out",
    "no entry, some left out",
    "entries, nothing left out",
    "entries, some left out",
    "key 0",
    "the greatest key",
    "over 255 entries",
    "buffer of the file's length",
    "buffer with more room",
];

const OF_BADS: [&str; 20] = [
    "slot: flag",
    "slot: empty and not zero",
    "slot: byte 3",
    "slot: byte 22",
    "slot: byte 23",
    "slot: absent left link with a key",
    "slot: absent left link with a tag",
    "slot: absent right link with a key",
    "slot: absent right link with a tag",
    "slot: own tag",
    "slot: left tag",
    "slot: right tag",
    "slot: off its path",
    "waiting: empty",
    "waiting: absent left link with a key",
    "waiting: absent left link with a tag",
    "waiting: absent right link with a key",
    "waiting: absent right link with a tag",
    "waiting: a tag of 2^k",
    "waiting: a greater tag",
];

const OF_REPEATS: [&str; 11] = [
    "two waiting",
    "two waiting, apart",
    "one waiting, one in a slot",
    "two slots of a bucket",
    "two slots of two buckets",
    "three or more",
    "key 0",
    "the greatest key",
    "first waiting one bad",
    "lowest slot bad",
    "all bad",
];

type Met = Vec<(&'static str, String)>;

/// The branches that a trial's read-out met.
pub fn branches(trial: &Trial, result: Result<usize, u8>) -> Met {
    let record = &trial.record;
    let number = result.map_or_else(|number| number.to_string(), |_| "file".to_string());
    let mut met = vec![(NUMBERS, number)];
    let causes = causes(record, result);
    if let [(_, what)] = &causes[..] {
        met.extend(what.iter().map(|what| (CAUSES, what.clone())));
    }
    if let [(one, _), (other, _)] = causes[..] {
        met.push((ORDER, format!("{one} and {other}")));
    }
    if let Ok(length) = result {
        let spots = spots(record);
        met.extend(of_store(trial, &spots).map(|what| (STORES, what)));
        met.extend(of_file(record, &spots, length).map(|what| (FILES, what.to_string())));
        met.extend(
            spots
                .iter()
                .filter_map(bad_for_one_cause)
                .map(|what| (BADS, what)),
        );
        met.extend(of_repeats(&spots).map(|what| (REPEATS, what.to_string())));
    }
    met.retain(|(group, name)| is_known(group, name));
    met
}

fn is_known(group: &str, name: &str) -> bool {
    let groups = BRANCHES.iter().filter(|(one, _)| *one == group);
    groups.flat_map(|(_, names)| *names).any(|one| *one == name)
}

// ---- refusals

/// The numbers whose cause holds, in order, each with its cause in words.
fn causes(record: &Record, result: Result<usize, u8>) -> Vec<(u8, Option<String>)> {
    let Record { state, tree, room } = record;
    let mut causes = vec![];
    if !matches!(state.mark, 8 | 9) {
        causes.push((14, Some(format!("mark {}", state.mark))));
    }
    let head = head_causes(state);
    if !head.is_empty() {
        let only = (head.len() == 1).then(|| head[0].clone());
        causes.push((2, only));
    }
    if size_is_known(state.size) && tree.len() != tree_bytes(state.size) {
        causes.push((3, length_cause(tree.len(), state.size)));
    }
    if *room < 2 || result == Err(15) {
        causes.push((15, room_cause(record)));
    }
    causes
}

fn head_causes(state: &State) -> Vec<String> {
    let mut causes = vec![];
    if !structure_is_known(state.structure) {
        causes.push(format!("structure {}", state.structure));
    }
    if !size_is_known(state.size) {
        causes.push(format!("size {}", state.size));
    }
    if state.count > PLACES {
        causes.push(format!("{} waiting", state.count));
    }
    causes
}

pub(crate) fn length_cause(length: usize, size: u8) -> Option<String> {
    let right = tree_bytes(size);
    let words = match length {
        0 => "no tree",
        _ if length + 1 == right => "tree a byte short",
        _ if length == right + 1 => "tree a byte long",
        _ if length + BUCKET_BYTES == right => "tree a bucket short",
        _ if length == right + BUCKET_BYTES => "tree a bucket long",
        _ if (1..=GREATEST_SIZE).any(|other| length == tree_bytes(other)) => "tree of another size",
        _ => return None,
    };
    Some(words.to_string())
}

fn room_cause(record: &Record) -> Option<String> {
    let mut output = vec![0; super::MOST_ROOM];
    let length = crate::plain::read_out(&record.state, &record.tree, &mut output).ok()?;
    let words = match record.room {
        0 => "no buffer",
        room if room + 1 == length => "buffer a byte short",
        _ => "buffer much too short",
    };
    Some(words.to_string())
}

// ---- slots and waiting places

struct Spot {
    bytes: Slot,
    /// None for a waiting place.
    bucket: Option<usize>,
    causes: Vec<String>,
}

impl Spot {
    /// The causes for which it is bad are found by another way than `plain`'s.
    fn new(bytes: &[u8], size: u8, bucket: Option<usize>) -> Spot {
        let spot = Spot {
            bytes: bytes.try_into().expect("a slot's bytes"),
            bucket,
            causes: bad_causes(bytes, size, bucket),
        };
        let bad = match read_slot(bytes, size, bucket) {
            Reading::Node(_) => false,
            Reading::Empty => bucket.is_none(),
            Reading::Bad => true,
        };
        assert_eq!(bad, !spot.causes.is_empty());
        spot
    }

    fn key(&self) -> u32 {
        number(&self.bytes, 4, 4)
    }

    fn is_node(&self) -> bool {
        self.bytes[0] == 1 && self.causes.is_empty()
    }
}

/// The waiting places within the count, then the tree's slots.
fn spots(record: &Record) -> Vec<Spot> {
    let Record { state, tree, .. } = record;
    let waiting = state.places[..state.count].iter();
    let slots = tree.chunks(SLOT_BYTES).enumerate();
    waiting
        .map(|place| Spot::new(place, state.size, None))
        .chain(slots.map(|(at, slot)| Spot::new(slot, state.size, Some(1 + at / BUCKET_SLOTS))))
        .collect()
}

fn number(bytes: &[u8], start: usize, length: usize) -> u32 {
    let bytes = bytes[start..start + length].iter().rev();
    bytes.fold(0, |number, &byte| number << 8 | u32::from(byte))
}

pub(crate) fn bad_causes(slot: &[u8], size: u8, bucket: Option<usize>) -> Vec<String> {
    let mut causes = vec![];
    match (slot[0], bucket) {
        (0, None) => return vec!["empty".to_string()],
        (0, _) if slot.iter().all(|&byte| byte == 0) => return vec![],
        (0, _) => return vec!["empty and not zero".to_string()],
        (1, _) => {}
        _ => causes.push("flag".to_string()),
    }
    let zero_bytes = ZERO_BYTES.iter().filter(|&&at| slot[at] != 0);
    causes.extend(zero_bytes.map(|at| format!("byte {at}")));
    for (at, side) in ["left", "right"].into_iter().enumerate() {
        if slot[1 + at] == 0 {
            let fields = [
                ("key", number(slot, 8 + 4 * at, 4)),
                ("tag", number(slot, 18 + 2 * at, 2)),
            ];
            let filled = fields.iter().filter(|(_, field)| *field != 0);
            causes.extend(filled.map(|(name, _)| format!("absent {side} link with a {name}")));
        }
    }
    causes.extend(tag_causes(slot, size, bucket));
    causes
}

fn tag_causes(slot: &[u8], size: u8, bucket: Option<usize>) -> Vec<String> {
    let tags = ["own", "left", "right"].into_iter().zip([16, 18, 20]);
    let tags = tags.map(|(name, at)| (name, number(slot, at, 2)));
    let mut causes: Vec<String> = tags
        .filter(|(_, tag)| *tag >> size != 0)
        .map(|(name, tag)| match bucket {
            Some(_) => format!("{name} tag"),
            None if tag == 1 << size => "a tag of 2^k".to_string(),
            None => "a greater tag".to_string(),
        })
        .collect();
    let own = number(slot, 16, 2);
    if let (Some(bucket), 0) = (bucket, own >> size) {
        if !passes(own as u16, size, bucket) {
            causes.push("off its path".to_string());
        }
    }
    causes
}

fn bad_for_one_cause(spot: &Spot) -> Option<String> {
    let [cause] = &spot.causes[..] else {
        return None;
    };
    let where_it_is = spot.bucket.map_or("waiting", |_| "slot");
    Some(format!("{where_it_is}: {cause}"))
}

// ---- files

fn of_store(trial: &Trial, spots: &[Spot]) -> impl Iterator<Item = String> {
    let state = &trial.record.state;
    let mut names = vec![format!("size {}", state.size)];
    if trial.as_left {
        let structure = STRUCTURES[usize::from(state.structure) - 1];
        names.push(format!("{structure} closed by {}", state.mark));
    }
    names.push(match state.count {
        0 => "none waiting".to_string(),
        count => format!("{count} waiting"),
    });
    let (waiting, beyond) = state.places.split_at(state.count);
    let keys: Vec<u32> = waiting.iter().map(|place| number(place, 4, 4)).collect();
    let is_node = |place: &Slot| matches!(read_slot(place, state.size, None), Reading::Node(_));
    let facts = [
        (
            beyond.is_empty() && spots.iter().all(Spot::is_node),
            "every place full",
        ),
        (!keys.is_sorted(), "waiting keys not ascending"),
        (
            beyond.concat().iter().any(|&byte| byte != 0),
            "nonzero place beyond the count",
        ),
        (beyond.iter().any(is_node), "good node beyond the count"),
    ];
    let facts = facts.into_iter().chain(head_facts(state));
    let facts = facts.filter(|(holds, _)| *holds);
    names
        .into_iter()
        .chain(facts.map(|(_, name)| name.to_string()))
}

/// What a call would find unfit, and a read-out does not ask about.
fn head_facts(state: &State) -> [(bool, &'static str); 4] {
    let State { root, ahead, .. } = state;
    [
        (
            state.entries > capacity(state.size),
            "entries beyond the size",
        ),
        (root.tag >> state.size != 0, "root link unfit"),
        (ahead.tag >> state.size != 0, "tag drawn ahead unfit"),
        (
            state.structure != QUEUE && ahead.key != 0,
            "next unused key of no queue",
        ),
    ]
}

fn of_file(record: &Record, spots: &[Spot], length: usize) -> impl Iterator<Item = &'static str> {
    let keys: Vec<u32> = spots
        .iter()
        .filter(|spot| spot.is_node())
        .map(Spot::key)
        .collect();
    let used = |spot: &&Spot| spot.is_node() || !spot.causes.is_empty();
    let distinct = (length - 2) / 16;
    let all_taken = length == 2 + 16 * spots.iter().filter(used).count();
    let facts = [
        (keys.is_empty() && length == 2, "no entry, nothing left out"),
        (keys.is_empty() && length > 2, "no entry, some left out"),
        (!keys.is_empty() && all_taken, "entries, nothing left out"),
        (!keys.is_empty() && !all_taken, "entries, some left out"),
        (keys.contains(&0), "key 0"),
        (keys.contains(&u32::MAX), "the greatest key"),
        (all_taken && distinct > 255, "over 255 entries"),
        (record.room == length, "buffer of the file's length"),
        (record.room > length, "buffer with more room"),
    ];
    facts
        .into_iter()
        .filter(|(holds, _)| *holds)
        .map(|(_, name)| name)
}

/// Of the keys that stand in several full places, bad or not.
fn of_repeats(spots: &[Spot]) -> impl Iterator<Item = &'static str> {
    let mut by_key: BTreeMap<u32, Vec<(usize, &Spot)>> = BTreeMap::new();
    for (at, spot) in spots
        .iter()
        .enumerate()
        .filter(|(_, spot)| spot.bytes[0] != 0)
    {
        by_key.entry(spot.key()).or_default().push((at, spot));
    }
    by_key.retain(|_, found| found.len() > 1);
    let names: Vec<&str> = by_key
        .into_iter()
        .flat_map(|(key, found)| of_repeat(key, &found))
        .collect();
    names.into_iter()
}

fn of_repeat(key: u32, found: &[(usize, &Spot)]) -> Vec<&'static str> {
    let good: Vec<(usize, Option<usize>)> = found
        .iter()
        .filter(|(_, spot)| spot.is_node())
        .map(|(at, spot)| (*at, spot.bucket))
        .collect();
    let (_, first) = found[0];
    let mut names = match good[..] {
        [] => return vec!["all bad"],
        [_] => vec![],
        [(one, None), (other, None)] if one + 1 == other => vec!["two waiting"],
        [(_, None), (_, None)] => vec!["two waiting, apart"],
        [(_, None), (_, Some(_))] => vec!["one waiting, one in a slot"],
        [(_, one), (_, other)] if one == other => vec!["two slots of a bucket"],
        [_, _] => vec!["two slots of two buckets"],
        _ => vec!["three or more"],
    };
    if good.len() > 1 {
        names.extend((key == 0).then_some("key 0"));
        names.extend((key == u32::MAX).then_some("the greatest key"));
    }
    if !first.is_node() {
        names.push(
            first
                .bucket
                .map_or("first waiting one bad", |_| "lowest slot bad"),
        );
    }
    names
}
