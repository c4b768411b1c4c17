//! What the steps of a heap, of a put and of a queue can meet, and what damage
//! a round can find, for the random runs to count.

use crate::paper::{HEAP, MAP, QUEUE, STACK};
use Branch::*;

#[derive(Clone, Copy, Debug, PartialEq, Eq)]
pub enum Branch {
    AddToEmpty,
    AddToFull,
    AddStaysBelow,
    AddRisesPart,
    AddRisesToRoot,
    AddStopsAtEqual,
    TakeFromEmpty,
    TakeOfOne,
    TakeOfTwo,
    TakeOfThree,
    TakeStaysAtOnce,
    TakeSinksLeft,
    TakeSinksRight,
    TakeStopsHalfway,
    TakeReachesBottom,
    TakeStopsAtEqual,
    EqualChildren,
    OnlyLeftChild,
    ChildHeld,
    ChildFetched,
    PutNew,
    PutNewSingle,
    PutNewDouble,
    PutReplaces,
    PutRefused,
    FullReplaces,
    FullReplacesRoot,
    FullReplacesBelow,
    FullReplacesInSizeOne,
    InToFresh,
    InAfterEmptied,
    InBehindOthers,
    InToFull,
    OutOfFresh,
    OutOfEmptied,
    OutOfLast,
    OutBeforeOthers,
    BadSlot,
    KeyTwice,
    WantedMissing,
    WantedTag,
    /// Of a structure.
    WantedUnsound(u8),
}

/// Branches in groups, all with their names.
pub type Groups = [(&'static str, &'static [(Branch, &'static str)])];

pub const STEPS: &Groups = &[
    ("branches of the heap", &OF_THE_HEAP),
    ("branches of a put", &OF_A_PUT),
    ("branches of the queue", &OF_THE_QUEUE),
];
pub const DAMAGE_FOUND: &Groups = &[("damage found", &OF_DAMAGE)];

impl Branch {
    /// Its group and its name.
    pub fn name(self) -> (&'static str, &'static str) {
        let named = STEPS
            .iter()
            .chain(DAMAGE_FOUND)
            .find_map(|(group, branches)| {
                let found = branches.iter().find(|(branch, _)| *branch == self);
                found.map(|(_, name)| (*group, *name))
            });
        named.expect("each is in a group")
    }
}

const OF_THE_HEAP: [(Branch, &str); 20] = [
    (AddToEmpty, "add to an empty heap"),
    (AddToFull, "add to a full heap"),
    (AddStaysBelow, "add stays below"),
    (AddRisesPart, "add rises part of the way"),
    (AddRisesToRoot, "add rises to the root"),
    (AddStopsAtEqual, "add stops at an equal parent"),
    (TakeFromEmpty, "take from an empty heap"),
    (TakeOfOne, "take at 1 entry"),
    (TakeOfTwo, "take at 2 entries"),
    (TakeOfThree, "take at 3 entries"),
    (TakeStaysAtOnce, "take stays at once"),
    (TakeSinksLeft, "take sinks left"),
    (TakeSinksRight, "take sinks right"),
    (TakeStopsHalfway, "take stops halfway"),
    (TakeReachesBottom, "take reaches the bottom"),
    (TakeStopsAtEqual, "take stops at an equal child"),
    (EqualChildren, "left one taken of equal children"),
    (OnlyLeftChild, "only a left child"),
    (ChildHeld, "child held already"),
    (ChildFetched, "child fetched"),
];

const OF_A_PUT: [(Branch, &str); 9] = [
    (PutNew, "new with no rotation"),
    (PutNewSingle, "new with a single rotation"),
    (PutNewDouble, "new with a double rotation"),
    (PutReplaces, "replaced with room left"),
    (PutRefused, "refused on a full map"),
    (FullReplaces, "replaced on a full map"),
    (FullReplacesRoot, "replaced on a full map at the root"),
    (FullReplacesBelow, "replaced on a full map below the root"),
    (FullReplacesInSizeOne, "replaced on a full map of size 1"),
];

const OF_THE_QUEUE: [(Branch, &str); 8] = [
    (InToFresh, "in on a fresh queue"),
    (InAfterEmptied, "in on an emptied queue"),
    (InBehindOthers, "in behind others"),
    (InToFull, "in on a full queue"),
    (OutOfFresh, "out on a fresh queue"),
    (OutOfEmptied, "out on an emptied queue"),
    (OutOfLast, "out of the last one"),
    (OutBeforeOthers, "out with others left"),
];

const OF_DAMAGE: [(Branch, &str); 8] = [
    (BadSlot, "a bad slot"),
    (KeyTwice, "a key twice"),
    (WantedMissing, "a wanted node missing"),
    (WantedTag, "a wanted node with another tag"),
    (WantedUnsound(MAP), "a wanted node that fails a map's tests"),
    (
        WantedUnsound(STACK),
        "a wanted node that fails a stack's tests",
    ),
    (
        WantedUnsound(HEAP),
        "a wanted node that fails a heap's tests",
    ),
    (
        WantedUnsound(QUEUE),
        "a wanted node that fails a queue's tests",
    ),
];
