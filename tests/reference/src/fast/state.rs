//! The state in fixed arrays, its opening and its fitness.

use super::node::Node;
use crate::paper::*;

#[derive(Clone, Debug, PartialEq, Eq)]
pub struct State {
    pub mark: u8,
    pub structure: u8,
    pub size: u8,
    pub entries: u32,
    pub root: Link,
    pub ahead: Ahead,
    pub count: usize,
    pub places: [Node; PLACES],
}

impl State {
    pub const ZERO: State = State {
        mark: 0,
        structure: 0,
        size: 0,
        entries: 0,
        root: Link::NONE,
        ahead: Ahead::NONE,
        count: 0,
        places: [Node::EMPTY; PLACES],
    };

    pub fn is_fit(&self) -> bool {
        matches!(self.structure, MAP..=QUEUE)
            && matches!(self.size, 1..=GREATEST_SIZE)
            && self.entries < 1 << self.size
            && self.count <= WAITING_LIMIT
            && self.root_is_fit()
            && self.ahead_is_fit()
            && self.waiting_is_fit()
    }

    fn waiting_is_fit(&self) -> bool {
        let (waiting, unused) = self.places.split_at(self.count);
        let mut least = 0;
        for node in waiting {
            if !node.is_good(self.size) || u64::from(node.key()) < least {
                return false;
            }
            least = u64::from(node.key()) + 1;
        }
        unused.iter().fold(0, |bits, place| bits | place.any_bits()) == 0
    }

    fn root_is_fit(&self) -> bool {
        if self.entries == 0 {
            return self.root == Link::NONE;
        }
        let shape_is_fit = match self.structure {
            MAP => {
                let height = self.root.height.min(13);
                LEAST_ENTRIES[usize::from(height)] <= self.entries && self.entries < 1 << height
            }
            STACK => self.root.height == 1 && self.root.key == self.entries,
            HEAP => self.root.height == 1 && self.root.key == 1,
            _ => {
                let next = u64::from(self.root.key) + u64::from(self.entries);
                self.root.height == 1 && next == u64::from(self.ahead.key)
            }
        };
        shape_is_fit && self.root.tag >> self.size == 0
    }

    fn ahead_is_fit(&self) -> bool {
        let leaf_bits = match (self.structure, self.entries) {
            (QUEUE, 1..) => self.size,
            _ => 0,
        };
        self.ahead.tag >> leaf_bits == 0 && (self.structure == QUEUE || self.ahead.key == 0)
    }
}

/// The fewest entries of a balanced tree by height; beyond 11 none fits.
const LEAST_ENTRIES: [u32; 14] = [0, 1, 2, 4, 7, 12, 20, 33, 54, 88, 143, 232, 376, 609];

pub fn open(structure: u8, size: u8, tree: &mut [u8]) -> State {
    let mark = match (structure, size) {
        (MAP..=QUEUE, 1..=GREATEST_SIZE) if tree.len() == tree_bytes(size) => 0,
        (MAP..=QUEUE, 1..=GREATEST_SIZE) => TREE_LENGTH,
        (MAP..=QUEUE, _) => BAD_SIZE,
        _ => BAD_STRUCTURE,
    };
    if mark != 0 {
        return State {
            mark,
            ..State::ZERO
        };
    }
    tree.fill(0);
    State {
        structure,
        size,
        ..State::ZERO
    }
}
