//! Random inputs of `damaged_calls`, each from a seed of its own: the walk
//! program's, with damage before some of the calls, and few calls after the one
//! that closes the store.

use crate::fast;
use crate::inputs::{self, Plan};
use crate::paper::*;
use crate::random::Random;
use crate::walk::{open, Call, Damage, Input, Next};

/// Buckets that most paths pass.
const NEAR_ROOT: usize = 3;
/// Bytes of a slot that are often damaged: flag, heights, zero bytes, and the
/// low bytes of keys and tags.
const BYTES: [usize; 14] = [0, 0, 1, 2, 3, 4, 8, 12, 16, 16, 18, 20, 22, 23];
/// Heights, and the low bytes of keys and tags.
const FIELDS: [usize; 8] = [1, 2, KEY, LEFT_KEY, RIGHT_KEY, OWN_TAG, LEFT_TAG, RIGHT_TAG];
const KEY: usize = 4;
const LEFT_KEY: usize = 8;
const RIGHT_KEY: usize = 12;
const OWN_TAG: usize = 16;
const LEFT_TAG: usize = 18;
const RIGHT_TAG: usize = 20;

/// What an input's damage is done to.
#[derive(Clone, Copy)]
enum Aim {
    /// A full slot, which mostly is not bad then.
    Fields,
    FullSlots,
    NearRoot,
    /// The paths of the call's draws.
    Paths,
    Anywhere,
}

const AIMS: [Aim; 8] = [
    Aim::Fields,
    Aim::Fields,
    Aim::Fields,
    Aim::FullSlots,
    Aim::NearRoot,
    Aim::Paths,
    Aim::Paths,
    Aim::Anywhere,
];

/// A store under the input's calls.
struct Run {
    random: Random,
    state: fast::State,
    tree: Vec<u8>,
    /// The first call that may be damaged, if one may.
    first: Option<usize>,
    aim: Aim,
    bytes: Vec<u8>,
}

/// The input of a seed.
pub fn input(seed: u64) -> Vec<u8> {
    let whole = inputs::input(seed);
    let Some((&[structure, size], calls)) = whole.split_first_chunk() else {
        return whole;
    };
    let (state, tree) = open::<fast::State>(structure, size);
    if state.mark != 0 {
        return whole;
    }
    let numbers = tape_length(structure, size);
    let length = TICKET_BYTES + 2 * numbers;
    let mut random = Random::new(!seed);
    let first = first_damage(&mut random, inputs::plan(seed), size, calls.len() / length);
    let aim = random.pick(&AIMS);
    let bytes = vec![structure, size];
    let mut run = Run {
        random,
        state,
        tree,
        first,
        aim,
        bytes,
    };
    let broken_off = calls.len() % length;
    let (calls, rest) = calls.split_at(calls.len() - broken_off);
    run.all(calls.chunks(length), numbers);
    if broken_off > 0 {
        run.break_off(rest);
    }
    run.bytes
}

/// One in four has none, nor have most of those that are to overflow.
fn first_damage(random: &mut Random, plan: Plan, size: u8, calls: usize) -> Option<usize> {
    let crowded = plan == Plan::SkewedLeaves && size >= 7;
    let whole = random.one_in(4) || crowded && !random.one_in(8);
    let before = random.pick(&[calls, calls.min(40)]);
    (!whole && calls > 0).then(|| random.index(before))
}

impl Run {
    /// The calls, up to a few after the one that closes the store.
    fn all<'a>(&mut self, calls: impl Iterator<Item = &'a [u8]>, numbers: usize) {
        let mut more = self.random.below(4);
        for (at, bytes) in calls.enumerate() {
            let mut input = Input {
                bytes,
                damages: false,
            };
            let Ok(Next::Call(call)) = input.call(numbers) else {
                panic!("a whole call");
            };
            self.bytes.extend(bytes);
            self.call(at, call);
            if self.state.mark != 0 {
                if more == 0 {
                    return;
                }
                more -= 1;
            }
        }
    }

    /// Its damage, and what the store is after it.
    fn call(&mut self, at: usize, Call { ticket, tape, .. }: Call) {
        let damaged = self.first.is_some_and(|first| first <= at);
        let damage = match damaged && self.random.one_in(2) {
            true => self.damage(&tape),
            false => Damage {
                place: self.random.next() as u32,
                amount: 0,
            },
        };
        self.bytes.extend(damage.bytes());
        damage.is_done_to(&mut self.tree);
        let mut trace = vec![0; 2 * fetch_rounds(self.state.structure, self.state.size)];
        fast::call(&mut self.state, &mut self.tree, &ticket, &tape, &mut trace);
    }

    fn damage(&mut self, tape: &[u16]) -> Damage {
        let slots = self.tree.len() / SLOT_BYTES;
        let slot = match self.aim {
            Aim::Fields if self.random.one_in(2) => self.root_slot(),
            Aim::Fields | Aim::FullSlots => self.full_slot(),
            Aim::NearRoot => self.random.index(NEAR_ROOT * BUCKET_SLOTS),
            Aim::Paths => self.slot_on_a_path(tape),
            Aim::Anywhere => self.random.index(slots),
        };
        let (byte, amount) = match self.aim {
            Aim::Fields => self.subtle_damage(slot),
            _ => self.any_damage(),
        };
        Damage {
            place: self.beyond_the_tree(SLOT_BYTES * slot + byte),
            amount,
        }
    }

    /// A byte of a slot and an amount.
    fn any_damage(&mut self) -> (usize, u8) {
        let byte = match self.random.below(3) {
            0 => self.random.index(SLOT_BYTES),
            _ => self.random.pick(&BYTES),
        };
        let any = 1 + self.random.below(255) as u8;
        (byte, self.random.pick(&[1, 1, 2, 128, 255, any]))
    }

    /// A height, key or tag that stays one of a good slot, mostly.
    fn subtle_damage(&mut self, slot: usize) -> (usize, u8) {
        let size = self.state.size;
        let byte = self.field(SLOT_BYTES * slot);
        let place = SLOT_BYTES * slot + byte;
        let depth = (1 + slot / BUCKET_SLOTS).ilog2() as u8;
        let amount = match byte {
            OWN_TAG => self.other_leaf(place, size - depth),
            LEFT_TAG | RIGHT_TAG => self.other_leaf(place, size),
            _ => self.random.pick(&[1, 1, 2, 255]),
        };
        (byte, amount)
    }

    /// A field of a slot, none of a link that is not there.
    fn field(&mut self, slot: usize) -> usize {
        let links = [self.tree[slot + 1], self.tree[slot + 2]].map(|height| height > 0);
        let mut fields = FIELDS.to_vec();
        fields.retain(|&field| match field {
            LEFT_KEY | LEFT_TAG => links[0],
            RIGHT_KEY | RIGHT_TAG => links[1],
            _ => true,
        });
        self.random.pick(&fields)
    }

    /// What changes this many low bits of a byte to any.
    fn other_leaf(&mut self, place: usize, bits: u8) -> u8 {
        let old = self.tree[place];
        let mask = ((1u16 << bits) - 1) as u8;
        let new = old & !mask | self.random.next() as u8 & mask;
        new.wrapping_sub(old)
    }

    /// The slot with the root's key, or else a full one.
    fn root_slot(&mut self) -> usize {
        let key = self.state.root.key.to_le_bytes();
        let slots = self.tree.chunks(SLOT_BYTES);
        let found = slots
            .enumerate()
            .find(|(_, slot)| slot[0] == 1 && slot[4..8] == key);
        match found {
            Some((at, _)) => at,
            None => self.full_slot(),
        }
    }

    /// A full slot, if there is one.
    fn full_slot(&mut self) -> usize {
        let slots = self.tree.len() / SLOT_BYTES;
        let start = self.random.index(slots);
        let is_full = |at: &usize| self.tree[SLOT_BYTES * at] == 1;
        (start..slots)
            .chain(0..start)
            .find(is_full)
            .unwrap_or(start)
    }

    /// A slot on the path of one of the tape's leaves, mostly of a put round and in
    /// the leaf's bucket.
    fn slot_on_a_path(&mut self, tape: &[u16]) -> usize {
        let size = self.state.size;
        let puts = &tape[first_put_draw(self.state.structure, size)..];
        let leaves = if self.random.one_in(4) { tape } else { puts };
        let leaf = self.random.pick(leaves) % (1 << size);
        let above = match self.random.below(4) {
            0 => self.random.below(u64::from(size) + 1) as u8,
            _ => 0,
        };
        let bucket = fast::path_bucket(leaf, size, above);
        BUCKET_SLOTS * (bucket - 1) + self.random.index(BUCKET_SLOTS)
    }

    /// The same place, or a number that is that place modulo the tree's length.
    fn beyond_the_tree(&mut self, place: usize) -> u32 {
        let most = (u32::MAX as usize - place) / self.tree.len();
        let times = match self.random.below(4) {
            0 => self.random.index(most + 1),
            1 => most,
            _ => 0,
        };
        (place + times * self.tree.len()) as u32
    }

    /// Ends within a ticket or a tape, as the walk program's input does, or within
    /// a call's damage.
    fn break_off(&mut self, rest: &[u8]) {
        if self.bytes.len() > 2 && self.random.one_in(2) {
            let cut = 1 + self.random.index(Damage::BYTES);
            self.bytes.truncate(self.bytes.len() - cut);
        } else {
            self.bytes.extend(rest);
        }
    }
}
