//! Edits of a closed store: what makes slots and waiting nodes bad or repeated,
//! the state unfit, or a read-out refused.

use super::Closed;
use crate::paper::*;
use crate::plain::{read_slot, write_slot, Node, Reading};
use crate::random::Random;
use crate::record::ZERO_BYTES;

type Edit = fn(&mut Random, &mut Closed);

/// A slot of the tree or a waiting place, by number.
#[derive(Clone, Copy)]
enum Spot {
    Slot(usize),
    Waiting(usize),
}

/// Makes a full slot or waiting place of a size bad.
type Spoil = fn(&mut Random, u8, &mut [u8]);

const OF_TREE: [Spoil; 5] = [
    bad_flag,
    empty_and_nonzero,
    zero_byte,
    spoil_link,
    spoil_tag,
];

const EDITS: [Edit; 17] = [
    |random, store| tree(random, store.state.size, &mut store.tree),
    |random, store| tree(random, store.state.size, &mut store.tree),
    off_path,
    repeat,
    repeat,
    bad_twin,
    bad_waiting,
    bad_waiting,
    empty_waiting,
    beyond_count,
    count,
    swap_waiting,
    entries,
    root,
    ahead,
    resize,
    |random, store| store.state.structure = random.pick(&[MAP, STACK, HEAP, QUEUE]),
];

const REFUSALS: [Edit; 7] = [
    mark,
    mark,
    structure,
    size,
    |random, store| store.state.count = random.pick(&[PLACES + 1, 103, 65535]),
    tree_length,
    tree_length,
];

pub fn any(random: &mut Random, store: &mut Closed) {
    random.pick(&EDITS)(random, store);
}

/// An edit after which the read-out is most likely refused.
pub fn to_refuse(random: &mut Random, store: &mut Closed) {
    random.pick(&REFUSALS)(random, store);
}

/// Makes a slot bad that was full, or was empty.
pub fn tree(random: &mut Random, size: u8, tree: &mut [u8]) {
    let at = full_slot(random, size, tree, 0);
    let slot = &mut tree[SLOT_BYTES * at..][..SLOT_BYTES];
    random.pick(&OF_TREE)(random, size, slot);
}

/// Makes a waiting place bad, by any byte that can.
pub fn spoil_place(random: &mut Random, size: u8, place: &mut [u8]) {
    random.pick::<Spoil>(&[bad_flag, zero_byte, spoil_link, spoil_link, spoil_tag])(
        random, size, place,
    );
}

// ---- nodes

/// A good node for a bucket.
pub fn node(random: &mut Random, size: u8, bucket: usize, key: u32) -> Node {
    let above = size - bucket.ilog2() as u8;
    let leaf = (bucket << above) + random.index(1 << above) - leaf_count(size);
    Node {
        key,
        tag: leaf as u16,
        value: random.next(),
        left: link(random, size),
        right: link(random, size),
    }
}

fn link(random: &mut Random, size: u8) -> Link {
    match random.below(3) {
        0 => Link::NONE,
        _ => Link {
            height: random.pick(&[1, 1, 2, 11, 255]),
            key: key(random),
            tag: random.index(leaf_count(size)) as u16,
        },
    }
}

fn key(random: &mut Random) -> u32 {
    let (small, any) = (random.below(300) as u32, random.next() as u32);
    random.pick(&[0, u32::MAX, small, small, any])
}

/// A good full slot from this one on; one is made if none is found at once.
fn full_slot(random: &mut Random, size: u8, tree: &mut [u8], first: usize) -> usize {
    let slots = tree.len() / SLOT_BYTES;
    let start = first + random.index(slots - first);
    let is_full = |at: usize| is_good(&tree[SLOT_BYTES * at..][..SLOT_BYTES], size, at);
    if let Some(at) = (start..slots).chain(first..start).find(|&at| is_full(at)) {
        return at;
    }
    let key = key(random);
    let made = node(random, size, 1 + start / BUCKET_SLOTS, key);
    tree[SLOT_BYTES * start..][..SLOT_BYTES].copy_from_slice(&write_slot(&made));
    start
}

fn is_good(slot: &[u8], size: u8, at: usize) -> bool {
    matches!(
        read_slot(slot, size, Some(1 + at / BUCKET_SLOTS)),
        Reading::Node(_)
    )
}

impl Closed {
    /// A waiting place within the count, if there is one.
    fn waiting(&self, random: &mut Random) -> Option<usize> {
        (self.state.count > 0).then(|| random.index(self.state.count))
    }

    /// A waiting place or a full slot.
    fn spot(&mut self, random: &mut Random) -> Spot {
        if let (Some(number), true) = (self.waiting(random), random.one_in(2)) {
            return Spot::Waiting(number);
        }
        let size = self.state.size;
        Spot::Slot(full_slot(random, size, &mut self.tree, 0))
    }

    fn bytes_mut(&mut self, spot: Spot) -> &mut [u8] {
        match spot {
            Spot::Slot(at) => &mut self.tree[SLOT_BYTES * at..][..SLOT_BYTES],
            Spot::Waiting(number) => &mut self.state.places[number],
        }
    }
}

// ---- bad slots

fn bad_flag(random: &mut Random, _: u8, slot: &mut [u8]) {
    slot[0] = random.pick(&[2, 3, 128, 255]);
}

/// A full slot loses its flag, or all but one byte.
fn empty_and_nonzero(random: &mut Random, _: u8, slot: &mut [u8]) {
    if random.one_in(2) {
        slot.fill(0);
        slot[1 + random.index(SLOT_BYTES - 1)] = 1 + random.below(255) as u8;
    }
    slot[0] = 0;
}

fn zero_byte(random: &mut Random, _: u8, slot: &mut [u8]) {
    slot[random.pick(&ZERO_BYTES)] = random.pick(&[1, 128, 255]);
}

/// An absent link with a key, a tag or both.
fn spoil_link(random: &mut Random, size: u8, slot: &mut [u8]) {
    let side = random.index(2);
    let what = random.below(3);
    let key = if what == 0 { 0 } else { key(random) | 1 };
    let tag = if what == 1 {
        0
    } else {
        1 + random.index(leaf_count(size) - 1)
    };
    slot[1 + side] = 0;
    slot[8 + 4 * side..][..4].copy_from_slice(&key.to_le_bytes());
    slot[18 + 2 * side..][..2].copy_from_slice(&(tag as u16).to_le_bytes());
}

/// An own tag, or that of a link that is there, that is no leaf.
fn spoil_tag(random: &mut Random, size: u8, slot: &mut [u8]) {
    let which = random.index(3);
    if which > 0 {
        slot[which] = slot[which].max(1);
    }
    let least = 1u16 << size;
    let any = least | random.next() as u16;
    let tag = random.pick(&[least, least, least + 1, any, 65535]);
    slot[16 + 2 * which..][..2].copy_from_slice(&tag.to_le_bytes());
}

/// A slot below the root, with the tag of a leaf that is not below it.
fn off_path(random: &mut Random, store: &mut Closed) {
    let size = store.state.size;
    let at = full_slot(random, size, &mut store.tree, BUCKET_SLOTS);
    let slot = store.bytes_mut(Spot::Slot(at));
    while is_good(slot, size, at) {
        let tag = random.index(leaf_count(size)) as u16;
        slot[16..18].copy_from_slice(&tag.to_le_bytes());
    }
}

// ---- repeated keys

/// One key for two to four nodes.
fn repeat(random: &mut Random, store: &mut Closed) {
    let key = key(random).to_le_bytes();
    for _ in 0..random.pick(&[2, 2, 3, 4]) {
        let spot = store.spot(random);
        store.bytes_mut(spot)[4..8].copy_from_slice(&key);
    }
}

/// A bad node with a good one's key.
fn bad_twin(random: &mut Random, store: &mut Closed) {
    let size = store.state.size;
    let (good, twin) = (store.spot(random), store.spot(random));
    let key: [u8; 4] = store.bytes_mut(good)[4..8].try_into().unwrap();
    let spoil = random.pick::<Spoil>(&[spoil_link, spoil_tag]);
    let slot = store.bytes_mut(twin);
    slot[4..8].copy_from_slice(&key);
    spoil(random, size, slot);
}

// ---- waiting nodes

fn bad_waiting(random: &mut Random, store: &mut Closed) {
    if let Some(number) = store.waiting(random) {
        let size = store.state.size;
        let spoil = random.pick::<Spoil>(&[spoil_link, spoil_tag]);
        spoil(random, size, store.bytes_mut(Spot::Waiting(number)));
    }
}

/// An empty place within the count, all zero or not.
fn empty_waiting(random: &mut Random, store: &mut Closed) {
    if let Some(number) = store.waiting(random) {
        let place = store.bytes_mut(Spot::Waiting(number));
        if random.one_in(2) {
            place.fill(0);
        }
        place[0] = 0;
    }
}

/// Places beyond the count that are not zero: good nodes and any bytes.
fn beyond_count(random: &mut Random, store: &mut Closed) {
    let Closed { state, .. } = store;
    for place in state.places.iter_mut().skip(state.count) {
        *place = match random.below(3) {
            0 => [0; SLOT_BYTES],
            1 => {
                let key = key(random);
                write_slot(&node(random, state.size, 1, key))
            }
            _ => any_place(random),
        };
    }
}

fn any_place(random: &mut Random) -> Slot {
    let mut place = [0; SLOT_BYTES];
    place.fill_with(|| random.next() as u8);
    place[0] &= 1;
    for at in ZERO_BYTES {
        place[at] = 0;
    }
    place
}

/// Another count; the places that it brings in stay as they are, or are full.
fn count(random: &mut Random, store: &mut Closed) {
    let Closed { state, .. } = store;
    let old = state.count;
    let near = [old.saturating_sub(1), (old + 1).min(PLACES)];
    state.count = random.pick(&[0, near[0], near[1], 64, 65, 100, PLACES]);
    if random.one_in(2) {
        for number in old..state.count {
            let key = key(random);
            state.places[number] = write_slot(&node(random, state.size, 1, key));
        }
    }
}

fn swap_waiting(random: &mut Random, store: &mut Closed) {
    if let (Some(one), Some(other)) = (store.waiting(random), store.waiting(random)) {
        store.state.places.swap(one, other);
    }
}

// ---- the state's head and the tree's length

fn entries(random: &mut Random, store: &mut Closed) {
    let any = random.next() as u16;
    store.state.entries = u32::from(random.pick(&[0, 1, 255, 256, any]));
}

fn root(random: &mut Random, store: &mut Closed) {
    store.state.root = Link {
        height: random.pick(&[0, 1, 9, 255]),
        key: key(random),
        tag: random.next() as u16 >> random.below(17).min(15),
    };
}

/// Also of a structure that has none.
fn ahead(random: &mut Random, store: &mut Closed) {
    store.state.ahead = Ahead {
        key: key(random),
        tag: random.next() as u16 >> random.below(17).min(15),
    };
}

/// Another size, with the start of the same tree.
fn resize(random: &mut Random, store: &mut Closed) {
    store.state.size = 1 + random.below(8) as u8;
    store.tree.resize(tree_bytes(store.state.size), 0);
}

// ---- what is refused

fn mark(random: &mut Random, store: &mut Closed) {
    let any = random.next() as u8;
    store.state.mark = random.pick(&[0, 1, 3, 7, 10, 11, 12, 255, any]);
}

fn structure(random: &mut Random, store: &mut Closed) {
    let any = random.next() as u8;
    store.state.structure = random.pick(&[0, 5, 255, any]);
}

fn size(random: &mut Random, store: &mut Closed) {
    let any = random.next() as u8;
    store.state.size = random.pick(&[0, 9, 255, any]);
}

/// A length that is not the tree's, within what a record may have.
fn tree_length(random: &mut Random, store: &mut Closed) {
    let old = store.tree.len();
    let step = usize::from(store.state.size) + random.index(7);
    let of_another_size = tree_bytes(1 + (step % 8) as u8);
    let new = random.pick(&[
        old + 1,
        old.saturating_sub(1),
        old + BUCKET_BYTES,
        old.saturating_sub(BUCKET_BYTES),
        old.saturating_sub(SLOT_BYTES),
        of_another_size,
        0,
    ]);
    store.tree.resize(new.min(super::MOST_TREE), 0);
}
