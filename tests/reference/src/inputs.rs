//! Random inputs of the walk program, each from a seed of its own. Seeds in a
//! row go through every structure, size and plan.

use crate::fields;
use crate::paper::*;
use crate::random::Random;

/// What an input is to try.
#[derive(Clone, Copy, Debug, PartialEq, Eq)]
pub enum Plan {
    Uniform,
    /// Tapes of few leaves, so that stores of size 7 and 8 overflow.
    FewLeaves,
    /// Few leaves for most rounds, and other tags for new nodes: nodes wait that
    /// find no room on those paths.
    SkewedLeaves,
    Zeros,
    FillAndEmpty,
    /// Few keys, key 0 and the greatest among them, and great values.
    HotKeys,
    ForeignKinds,
    BrokenOff,
    RefusedOpening,
}

pub const PLANS: [Plan; 9] = [
    Plan::Uniform,
    Plan::FewLeaves,
    Plan::SkewedLeaves,
    Plan::Zeros,
    Plan::FillAndEmpty,
    Plan::HotKeys,
    Plan::ForeignKinds,
    Plan::BrokenOff,
    Plan::RefusedOpening,
];

/// Whence a call's tape comes.
#[derive(Clone, Copy)]
enum Tape {
    Uniform,
    Zeros,
    FewLeaves,
    SkewedLeaves,
    /// One leaf for all rounds. New nodes' tags are that leaf, or lie in the
    /// other half of the tree, where its path has only the root bucket.
    Near,
    Far,
    /// Another of the first three for each call.
    Changing,
}

/// The key that a small number stands for.
#[derive(Clone, Copy)]
enum Keys {
    Small,
    /// Over all 32 bits.
    Scattered,
    Edges,
}

const EDGE_KEYS: [u32; 9] = [
    0,
    1,
    255,
    256,
    0xffff,
    0x1_0000,
    0x8000_0000,
    u32::MAX - 1,
    u32::MAX,
];

const EDGE_VALUES: [u64; 9] = [
    0,
    1,
    9,
    10,
    0xffff_ffff,
    1 << 63,
    9_999_999_999_999_999_999,
    10_000_000_000_000_000_000,
    u64::MAX,
];

struct Input {
    random: Random,
    structure: u8,
    size: u8,
    tape: Tape,
    leaves: Vec<u16>,
    /// How many of eight numbers of a skewed tape, but for a new node's tag,
    /// are of those leaves.
    skew: u64,
    keys: Keys,
    /// A heap's numbers may lie below this, so that equal ones meet.
    values_below: Option<u64>,
    /// How many of ten calls are to add an entry.
    growth: u64,
    bytes: Vec<u8>,
}

pub fn plan(seed: u64) -> Plan {
    PLANS[(seed / 32) as usize % PLANS.len()]
}

/// A call as the walk program reads it.
pub fn call_bytes(ticket: Ticket, tape: &[u16]) -> Vec<u8> {
    let tape = tape.iter().flat_map(|number| number.to_le_bytes());
    ticket.bytes().into_iter().chain(tape).collect()
}

/// The input of a seed.
pub fn input(seed: u64) -> Vec<u8> {
    let mut input = Input::new(seed);
    match plan(seed) {
        Plan::Uniform => input.some_calls(Tape::Uniform),
        Plan::FewLeaves => input.growing_calls(Tape::FewLeaves),
        Plan::SkewedLeaves => match input.random.below(3) {
            0 => input.growing_calls(Tape::SkewedLeaves),
            _ => input.crowd(),
        },
        Plan::Zeros => input.growing_calls(Tape::Zeros),
        Plan::FillAndEmpty => input.fill_and_empty(),
        Plan::HotKeys => {
            input.keys = Keys::Edges;
            input.values_below = None;
            input.some_calls(Tape::Changing);
        }
        Plan::ForeignKinds => input.foreign_kinds(),
        Plan::BrokenOff => input.broken_off(),
        Plan::RefusedOpening => input.refused_opening(),
    }
    input.bytes
}

impl Input {
    /// The opening.
    fn new(seed: u64) -> Input {
        let mut random = Random::new(seed);
        let structure = [MAP, STACK, HEAP, QUEUE][(seed % 4) as usize];
        let size = 1 + (seed / 4 % 8) as u8;
        let leaves = (0..=random.below(4))
            .map(|_| random.next() as u16)
            .collect();
        Input {
            structure,
            size,
            tape: Tape::Uniform,
            leaves,
            skew: random.pick(&[6, 7, 8, 8, 8]),
            keys: random.pick(&[Keys::Small, Keys::Scattered]),
            values_below: match structure {
                HEAP => random.pick(&[None, None, Some(2), Some(5), Some(40)]),
                _ => None,
            },
            growth: 3 + random.below(6),
            bytes: vec![structure, size],
            random,
        }
    }

    fn capacity(&self) -> u64 {
        u64::from(capacity(self.size))
    }

    // ---- plans

    /// Mostly few calls, sometimes many.
    fn some_calls(&mut self, tape: Tape) {
        self.tape = tape;
        let most = match self.random.below(3) {
            0 => 8,
            1 => 60,
            _ => 2 * self.capacity() + 20,
        };
        for _ in 0..=self.random.below(most) {
            self.any_call();
        }
    }

    /// Enough calls to overflow, where the tape does that, and some more.
    fn growing_calls(&mut self, tape: Tape) {
        self.tape = tape;
        self.growth = 7 + self.random.below(4);
        for _ in 0..self.capacity() * 5 / 4 + self.random.below(20) {
            self.any_call();
        }
    }

    /// Fills the store and goes on, then empties it and goes on, with keys in
    /// order or not, and other calls between.
    fn fill_and_empty(&mut self) {
        let (add, take) = self.add_and_take();
        for _ in 0..=self.random.below(2) {
            self.call_on_each_key(add);
            self.add_when_full(add);
            self.call_on_each_key(take);
        }
    }

    /// About as many nodes wait as may, and calls fetch what lies in the tree, so
    /// that they overflow in fetch rounds too.
    fn crowd(&mut self) {
        match fetch_rounds(self.structure, self.size) {
            1 => self.crowd_then_take(),
            _ => self.fill_and_gather(),
        }
        self.some_calls(Tape::Near);
    }

    /// Fills the tree; then whatever calls fetch comes to one path.
    fn fill_and_gather(&mut self) {
        let (add, _) = self.add_and_take();
        self.call_on_each_key(add);
        self.tape = Tape::Near;
        self.growth = 0;
        for _ in 0..self.capacity() {
            self.any_call();
        }
    }

    /// An add fetches none here.
    fn crowd_then_take(&mut self) {
        let (add, take) = self.add_and_take();
        let far = self.random.pick(&[67, 68, 68, 68, 68, 69]);
        let near = [1 + self.random.below(4), 1 + self.random.below(4)];
        for (tape, calls) in [
            (Tape::Near, near[0]),
            (Tape::Far, far),
            (Tape::Near, near[1]),
        ] {
            self.tape = tape;
            for small in 0..calls.min(self.capacity() + 1) {
                let (key, value) = (self.key_of(small), self.value());
                self.call(add, key, value);
            }
        }
        for _ in 0..=self.random.below(12) {
            let (key, value) = (self.key(), self.value());
            self.call(take, key, value);
        }
    }

    fn call_on_each_key(&mut self, kind: u8) {
        for key in self.keys_in_some_order() {
            let value = self.value();
            self.call(kind, key, value);
            if self.random.one_in(8) {
                self.any_call();
            }
        }
    }

    /// For a map, keys that it most likely has and others, one as often as the
    /// other.
    fn add_when_full(&mut self, add: u8) {
        let room = self.capacity();
        for _ in 0..self.random.below(24) {
            let small = match self.random.below(2) {
                0 => self.random.below(room),
                _ => room + self.random.below(room / 2 + 2),
            };
            let (key, value) = (self.key_of(small), self.value());
            self.call(add, key, value);
        }
    }

    fn keys_in_some_order(&mut self) -> Vec<u32> {
        let count = self.capacity() + self.random.below(4);
        let mut keys: Vec<u32> = (0..count).map(|small| self.key_of(small)).collect();
        match self.random.below(4) {
            0 => keys.sort(),
            1 => keys.reverse(),
            _ => self.random.shuffle(&mut keys),
        }
        keys
    }

    fn foreign_kinds(&mut self) {
        self.tape = Tape::Changing;
        for _ in 0..=self.random.below(40) {
            if self.random.one_in(3) {
                let structure = self.structure;
                let any = self.random.next() as u8;
                let kind = self
                    .random
                    .pick(&[0, 1, 2, 3, 4, 5, 6, 7, 8, 9, 10, 255, any]);
                if !kind_fits(structure, kind) {
                    self.foreign_call(kind);
                    continue;
                }
            }
            self.any_call();
        }
    }

    /// Breaks off in the opening, in a ticket, after it, or in a tape.
    fn broken_off(&mut self) {
        self.tape = Tape::Changing;
        if self.random.one_in(8) {
            self.bytes.truncate(self.random.index(2));
            return;
        }
        for _ in 0..self.random.below(12) {
            self.any_call();
        }
        self.any_call();
        let length = TICKET_BYTES + 2 * tape_length(self.structure, self.size);
        let start = self.bytes.len() - length;
        let in_tape = TICKET_BYTES + 1 + self.random.index(length - TICKET_BYTES - 1);
        let in_ticket = 1 + self.random.index(TICKET_BYTES - 1);
        let left = self
            .random
            .pick(&[1, in_ticket, TICKET_BYTES, in_tape, in_tape, length - 1]);
        self.bytes.truncate(start + left);
    }

    /// An opening that is refused, and bytes that nobody is to read.
    fn refused_opening(&mut self) {
        let any = self.random.next() as u8;
        let bad_size = self.random.pick(&[0, 9, 10, 16, 255, any | 16]);
        let bad_structure = self.random.pick(&[0, 5, 6, 255, any | 8]);
        let (structure, size) = match self.random.below(3) {
            0 => (self.structure, bad_size),
            1 => (bad_structure, self.size),
            _ => (bad_structure, bad_size),
        };
        self.bytes = vec![structure, size];
        for _ in 0..self.random.below(3) * self.random.below(300) {
            self.bytes.push(self.random.next() as u8);
        }
    }

    // ---- calls

    fn add_and_take(&self) -> (u8, u8) {
        match self.structure {
            MAP => (PUT, REMOVE),
            STACK => (PUSH, POP),
            HEAP => (ADD, TAKE),
            _ => (IN, OUT),
        }
    }

    /// A call of the structure's own.
    fn any_call(&mut self) {
        let adds = self.random.below(10) < self.growth;
        let (add, take) = self.add_and_take();
        let kind = match (self.structure, adds) {
            (_, true) => add,
            (MAP, false) => self.random.pick(&[GET, GET, REMOVE]),
            (_, false) => take,
        };
        let (key, value) = (self.key(), self.value());
        self.call(kind, key, value);
    }

    /// A call of the structure's own, with no stray field. One with one, which is
    /// refused, may come before.
    fn call(&mut self, kind: u8, key: u32, value: u64) {
        if self.random.one_in(fields::STRAY) {
            let stray = fields::stray_of(&mut self.random, self.structure);
            self.write(stray);
        }
        self.write(fields::clean(kind, key, value));
    }

    /// A foreign kind, with figures in fields that it does not use or not.
    fn foreign_call(&mut self, kind: u8) {
        let ticket = Ticket::new(kind, self.key(), self.value());
        let none = Ticket::new(kind, 0, 0);
        let ticket = self.random.pick(&[ticket, ticket, ticket.cleaned(), none]);
        self.write(ticket);
    }

    fn write(&mut self, ticket: Ticket) {
        let tape = self.tape_numbers();
        self.bytes.extend(call_bytes(ticket, &tape));
    }

    fn tape_numbers(&mut self) -> Vec<u16> {
        let tape = match self.tape {
            Tape::Changing => self
                .random
                .pick(&[Tape::Uniform, Tape::Zeros, Tape::FewLeaves]),
            tape => tape,
        };
        let rounds = fetch_rounds(self.structure, self.size);
        let spare = rounds..first_put_draw(self.structure, self.size);
        (0..tape_length(self.structure, self.size))
            .map(|position| self.tape_number(tape, spare.contains(&position)))
            .collect()
    }

    /// A number of a tape; a spare draw is no round's.
    fn tape_number(&mut self, tape: Tape, spare: bool) -> u16 {
        let few = match tape {
            Tape::Zeros => return 0,
            Tape::Near => return self.leaves[0],
            Tape::Far if spare => return self.far_leaf(),
            Tape::Far => return self.leaves[0],
            Tape::FewLeaves => true,
            Tape::SkewedLeaves => !spare && self.random.below(8) < self.skew,
            Tape::Uniform | Tape::Changing => false,
        };
        match few {
            true => self.random.pick(&self.leaves),
            false => self.random.next() as u16,
        }
    }

    /// A leaf in the half of the tree that does not have the first of the few.
    fn far_leaf(&mut self) -> u16 {
        let half = 1 << (self.size - 1);
        let lower = self.random.below(u64::from(half)) as u16;
        (self.leaves[0] & half ^ half) | lower
    }

    /// Some more keys than there is room for.
    fn key(&mut self) -> u32 {
        let small = self.random.below(self.capacity() * 3 / 2 + 2);
        self.key_of(small)
    }

    fn key_of(&self, small: u64) -> u32 {
        match self.keys {
            Keys::Small => small as u32,
            Keys::Scattered => (small as u32).wrapping_mul(0x9e37_79b1),
            Keys::Edges => EDGE_KEYS[small as usize % EDGE_KEYS.len()],
        }
    }

    fn value(&mut self) -> u64 {
        match (self.values_below, self.random.below(4)) {
            (Some(bound), _) => self.random.below(bound),
            (None, 0) => self.random.pick(&EDGE_VALUES),
            (None, 1) => self.random.below(1000),
            (None, _) => self.random.next(),
        }
    }
}
