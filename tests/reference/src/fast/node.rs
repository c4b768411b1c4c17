//! A node as the four little-endian words of its slot, so that reading and
//! writing one is a copy and one mask tests all its tags.

use crate::paper::{Link, Slot, SLOT_BYTES};

pub const LEFT: usize = 0;
pub const RIGHT: usize = 1;

/// Word 0: flag, left height, right height, zero, key (32 bits).
/// Word 1: left key, right key. Word 2: own, left and right tag, zero.
/// Word 3: value.
#[derive(Clone, Copy, Debug, Default, PartialEq, Eq)]
pub struct Node {
    words: [u64; 4],
}

impl Node {
    pub const EMPTY: Node = Node { words: [0; 4] };

    pub fn new(key: u32, tag: u16, value: u64) -> Node {
        Node {
            words: [1 | u64::from(key) << 32, 0, u64::from(tag), value],
        }
    }

    #[inline]
    pub fn read(slot: &[u8]) -> Node {
        let slot: &Slot = slot.try_into().expect("a slot's bytes");
        let word = |at: usize| u64::from_le_bytes(slot[8 * at..8 * at + 8].try_into().unwrap());
        Node {
            words: [word(0), word(1), word(2), word(3)],
        }
    }

    #[inline]
    pub fn write(&self, slot: &mut [u8]) {
        let slot: &mut Slot = slot.try_into().expect("a slot's bytes");
        for (bytes, word) in slot.chunks_exact_mut(8).zip(self.words) {
            bytes.copy_from_slice(&word.to_le_bytes());
        }
    }

    pub fn slot(&self) -> Slot {
        let mut slot = [0; SLOT_BYTES];
        self.write(&mut slot);
        slot
    }

    #[inline]
    pub fn is_zero(&self) -> bool {
        self.any_bits() == 0
    }

    /// Its words, one over the other: 0 only if all are.
    #[inline]
    pub fn any_bits(&self) -> u64 {
        let [head, keys, tags, value] = self.words;
        head | keys | tags | value
    }

    /// Full and not bad, its bucket not asked about.
    #[inline]
    pub fn is_good(&self, size: u8) -> bool {
        let [head, keys, tags, _] = self.words;
        let too_high = (0xffff << size) & 0xffff;
        let bad_tags = 0xffff << 48 | too_high << 32 | too_high << 16 | too_high;
        let left_absent_is_zero =
            head & 0xff00 != 0 || (keys as u32 == 0 && tags & 0xffff_0000 == 0);
        let right_absent_is_zero =
            head & 0xff_0000 != 0 || (keys >> 32 == 0 && tags & 0xffff_0000_0000 == 0);
        head & 0xff00_00ff == 1
            && tags & bad_tags == 0
            && left_absent_is_zero
            && right_absent_is_zero
    }

    /// Words 0 and 1: all but tags and value.
    #[inline]
    pub fn shape(&self) -> [u64; 2] {
        [self.words[0], self.words[1]]
    }

    #[inline]
    pub fn key(&self) -> u32 {
        (self.words[0] >> 32) as u32
    }

    #[inline]
    pub fn tag(&self) -> u16 {
        self.words[2] as u16
    }

    pub fn set_tag(&mut self, tag: u16) {
        self.words[2] = self.words[2] & !0xffff | u64::from(tag);
    }

    pub fn value(&self) -> u64 {
        self.words[3]
    }

    pub fn set_value(&mut self, value: u64) {
        self.words[3] = value;
    }

    pub fn side_height(&self, side: usize) -> u8 {
        (self.words[0] >> (8 + 8 * side)) as u8
    }

    pub fn link(&self, side: usize) -> Link {
        Link {
            height: self.side_height(side),
            key: (self.words[1] >> (32 * side)) as u32,
            tag: (self.words[2] >> (16 + 16 * side)) as u16,
        }
    }

    pub fn set_link(&mut self, side: usize, link: Link) {
        put_bits(
            &mut self.words[0],
            8 + 8 * side,
            0xff,
            u64::from(link.height),
        );
        put_bits(
            &mut self.words[1],
            32 * side,
            0xffff_ffff,
            u64::from(link.key),
        );
        self.set_link_tag(side, link.tag);
    }

    pub fn set_link_tag(&mut self, side: usize, tag: u16) {
        put_bits(&mut self.words[2], 16 + 16 * side, 0xffff, u64::from(tag));
    }

    /// The greater side's height plus 1.
    pub fn height(&self) -> u16 {
        1 + u16::from(self.side_height(LEFT).max(self.side_height(RIGHT)))
    }

    pub fn balance(&self) -> i16 {
        i16::from(self.side_height(LEFT)) - i16::from(self.side_height(RIGHT))
    }

    /// The link that leads to this node of a map.
    pub fn link_here(&self) -> Link {
        Link {
            height: self.height() as u8,
            key: self.key(),
            tag: self.tag(),
        }
    }
}

fn put_bits(word: &mut u64, shift: usize, mask: u64, bits: u64) {
    *word = *word & !(mask << shift) | bits << shift;
}
