//! Numbers and words of the paper.

pub const MAP: u8 = 1;
pub const STACK: u8 = 2;
pub const HEAP: u8 = 3;
pub const QUEUE: u8 = 4;
/// The structures' names, from number 1 on.
pub const STRUCTURES: [&str; 4] = ["map", "stack", "heap", "queue"];
pub const GREATEST_SIZE: u8 = 8;

pub const GET: u8 = 1;
pub const PUT: u8 = 2;
pub const REMOVE: u8 = 3;
pub const PUSH: u8 = 4;
pub const POP: u8 = 5;
pub const ADD: u8 = 6;
pub const TAKE: u8 = 7;
pub const IN: u8 = 8;
pub const OUT: u8 = 9;

/// Which fields of a ticket a kind uses. The others must be zero.
#[derive(Clone, Copy, Debug, PartialEq, Eq)]
pub struct Uses {
    pub key: bool,
    pub value: bool,
}

const fn using(key: bool, value: bool) -> Uses {
    Uses { key, value }
}

/// The kinds from 1 on: their names, and whether they use the key and the value.
pub const KINDS: [(&str, Uses); 9] = [
    ("get", using(true, false)),
    ("put", using(true, true)),
    ("remove", using(true, false)),
    ("push", using(false, true)),
    ("pop", using(false, false)),
    ("add", using(false, true)),
    ("take", using(false, false)),
    ("in", using(false, true)),
    ("out", using(false, false)),
];

/// What a kind uses, if there is such a kind.
pub fn uses(kind: u8) -> Option<Uses> {
    let at = usize::from(kind).checked_sub(1)?;
    KINDS.get(at).map(|(_, uses)| *uses)
}

pub const TICKET_BYTES: usize = 13;
pub const SLOT_BYTES: usize = 32;
pub const BUCKET_SLOTS: usize = 4;
pub const BUCKET_BYTES: usize = SLOT_BYTES * BUCKET_SLOTS;
/// Places for waiting nodes in the state.
pub const PLACES: usize = 101;
/// Waiting and held nodes at a round's close.
pub const WAITING_LIMIT: usize = 64;
/// Greatest height of a balanced tree with 2^k - 1 entries, for k = 1 to 8.
pub const GREATEST_HEIGHT: [usize; 8] = [1, 2, 4, 5, 6, 8, 9, 11];

pub const CLOSED: u8 = 1;
pub const STATE_UNFIT: u8 = 2;
pub const TREE_LENGTH: u8 = 3;
pub const TICKET_LENGTH: u8 = 4;
pub const FOREIGN_KIND: u8 = 5;
pub const TAPE_SHORT: u8 = 6;
pub const TRACE_SHORT: u8 = 7;
pub const DAMAGE: u8 = 8;
pub const OVERFLOW: u8 = 9;
pub const FULL: u8 = 10;
pub const BAD_STRUCTURE: u8 = 11;
pub const BAD_SIZE: u8 = 12;
/// Of a read-out: the mark is neither 8 nor 9.
pub const NOT_CLOSED: u8 = 14;
/// Of a read-out: the output buffer is too short.
pub const OUTPUT_SHORT: u8 = 15;
/// Of a queue's in: its next unused key is the greatest.
pub const KEYS_USED_UP: u8 = 17;
/// Of a C host: a state or result buffer of another length, or a tape or trace
/// of an odd one.
pub const BUFFER_LENGTH: u8 = 18;
/// A field of the ticket that its kind does not use is not zero.
pub const STRAY_FIELD: u8 = 19;

/// A read-out's reasons to leave a node or slot out.
pub const BAD: u8 = 1;
pub const REPEATED: u8 = 2;

pub type Slot = [u8; SLOT_BYTES];

/// Height 0 means no link; its key and tag are then 0.
#[derive(Clone, Copy, Debug, Default, PartialEq, Eq)]
pub struct Link {
    pub height: u8,
    pub key: u32,
    pub tag: u16,
}

impl Link {
    pub const NONE: Link = Link {
        height: 0,
        key: 0,
        tag: 0,
    };
}

/// What a queue's state keeps for its next node: the next unused key, and the
/// tag drawn ahead. Other structures have zeros.
#[derive(Clone, Copy, Debug, Default, PartialEq, Eq)]
pub struct Ahead {
    pub key: u32,
    pub tag: u16,
}

impl Ahead {
    pub const NONE: Ahead = Ahead { key: 0, tag: 0 };

    /// The link to a queue's next node.
    pub fn link(self) -> Link {
        Link {
            height: 1,
            key: self.key,
            tag: self.tag,
        }
    }
}

#[derive(Clone, Copy, Debug, PartialEq, Eq)]
pub struct Ticket {
    pub kind: u8,
    pub key: u32,
    pub value: u64,
}

impl Ticket {
    pub fn new(kind: u8, key: u32, value: u64) -> Ticket {
        Ticket { kind, key, value }
    }

    /// The same with zeros in the fields that its kind does not use; one of an
    /// unknown kind as it is.
    pub fn cleaned(self) -> Ticket {
        let Some(uses) = uses(self.kind) else {
            return self;
        };
        Ticket {
            kind: self.kind,
            key: if uses.key { self.key } else { 0 },
            value: if uses.value { self.value } else { 0 },
        }
    }

    pub fn is_clean(self) -> bool {
        self == self.cleaned()
    }

    /// The ticket in 13 bytes.
    pub fn read(bytes: &[u8]) -> Ticket {
        Ticket {
            kind: bytes[0],
            key: u32::from_le_bytes(bytes[1..5].try_into().unwrap()),
            value: u64::from_le_bytes(bytes[5..13].try_into().unwrap()),
        }
    }

    pub fn bytes(&self) -> [u8; TICKET_BYTES] {
        let mut bytes = [0; TICKET_BYTES];
        bytes[0] = self.kind;
        bytes[1..5].copy_from_slice(&self.key.to_le_bytes());
        bytes[5..13].copy_from_slice(&self.value.to_le_bytes());
        bytes
    }
}

#[derive(Clone, Copy, Debug, PartialEq, Eq)]
pub enum Answer {
    Found(u64),
    Absent,
    Replaced(u64),
    New,
    Removed(u64),
    Pushed,
    Popped(u64),
    Empty,
    Added,
    Taken(u64),
    Queued,
    Dequeued(u64),
    Refused(u8),
}

impl Answer {
    pub fn word(&self) -> &'static str {
        match self {
            Answer::Found(_) => "found",
            Answer::Absent => "absent",
            Answer::Replaced(_) => "replaced",
            Answer::New => "new",
            Answer::Removed(_) => "removed",
            Answer::Pushed => "pushed",
            Answer::Popped(_) => "popped",
            Answer::Empty => "empty",
            Answer::Added => "added",
            Answer::Taken(_) => "taken",
            Answer::Queued => "queued",
            Answer::Dequeued(_) => "dequeued",
            Answer::Refused(_) => "refused",
        }
    }

    pub fn value(&self) -> Option<u64> {
        match *self {
            Answer::Found(value)
            | Answer::Replaced(value)
            | Answer::Removed(value)
            | Answer::Popped(value)
            | Answer::Taken(value)
            | Answer::Dequeued(value) => Some(value),
            Answer::Absent
            | Answer::New
            | Answer::Pushed
            | Answer::Empty
            | Answer::Added
            | Answer::Queued
            | Answer::Refused(_) => None,
        }
    }

    /// The number after the word: a value, 0 for none, or the cause.
    pub fn number(&self) -> u64 {
        match *self {
            Answer::Refused(cause) => u64::from(cause),
            answer => answer.value().unwrap_or(0),
        }
    }
}

/// What a call returns: its answer, how many leaves it revealed, and its peak:
/// the largest number of nodes waiting and held at the close of one of its
/// rounds, 0 if none closed.
#[derive(Clone, Copy, Debug, PartialEq, Eq)]
pub struct Outcome {
    pub answer: Answer,
    pub leaves: usize,
    pub peak: usize,
}

impl Outcome {
    pub fn refused(cause: u8) -> Outcome {
        Outcome {
            answer: Answer::Refused(cause),
            leaves: 0,
            peak: 0,
        }
    }

    /// The number of a refusal, 0 with an answer.
    pub fn cause(&self) -> u8 {
        match self.answer {
            Answer::Refused(cause) => cause,
            _ => 0,
        }
    }
}

pub fn leaf_count(size: u8) -> usize {
    1 << size
}

pub fn capacity(size: u8) -> u32 {
    (1 << size) - 1
}

pub fn tree_bytes(size: u8) -> usize {
    BUCKET_BYTES * ((1 << (size + 1)) - 1)
}

/// F of a structure and size, both in range.
pub fn fetch_rounds(structure: u8, size: u8) -> usize {
    match structure {
        MAP => 3 * GREATEST_HEIGHT[usize::from(size) - 1],
        STACK | QUEUE => 1,
        _ => 3 * usize::from(size),
    }
}

/// How many draws lie between those of the fetch and of the put rounds.
pub fn spare_draws(structure: u8) -> usize {
    match structure {
        QUEUE => 2,
        _ => 1,
    }
}

/// The draw of put round 0.
pub fn first_put_draw(structure: u8, size: u8) -> usize {
    fetch_rounds(structure, size) + spare_draws(structure)
}

/// How many tape numbers a call takes.
pub fn tape_length(structure: u8, size: u8) -> usize {
    first_put_draw(structure, size) + fetch_rounds(structure, size)
}

pub fn structure_is_known(structure: u8) -> bool {
    (MAP..=QUEUE).contains(&structure)
}

pub fn size_is_known(size: u8) -> bool {
    (1..=GREATEST_SIZE).contains(&size)
}

pub fn kind_fits(structure: u8, kind: u8) -> bool {
    match structure {
        MAP => (GET..=REMOVE).contains(&kind),
        STACK => (PUSH..=POP).contains(&kind),
        HEAP => (ADD..=TAKE).contains(&kind),
        QUEUE => (IN..=OUT).contains(&kind),
        _ => false,
    }
}

/// The fewest entries of a balanced tree of this height.
pub fn least_entries(height: u8) -> u64 {
    let (mut this, mut next) = (0u64, 1u64);
    for _ in 0..height {
        (this, next) = (next, this.saturating_add(next).saturating_add(1));
    }
    this
}

/// Whether some balanced tree has this height and this many entries.
pub fn height_possible(height: u8, entries: u32) -> bool {
    let most = if height >= 32 {
        u64::MAX
    } else {
        (1u64 << height) - 1
    };
    let entries = u64::from(entries);
    least_entries(height) <= entries && entries <= most
}
