//! The state, its opening and its fitness.

use super::slot::{read_slot, write_slot, Node, Reading};
use crate::paper::*;

/// A waiting node's place holds a slot's bytes, so it can be empty or bad.
#[derive(Clone, Debug, PartialEq, Eq)]
pub struct State {
    pub mark: u8,
    pub structure: u8,
    pub size: u8,
    pub entries: u32,
    pub root: Link,
    pub ahead: Ahead,
    /// How many of the places are in use.
    pub count: usize,
    pub places: Vec<Slot>,
}

impl State {
    fn closed(mark: u8) -> State {
        State {
            mark,
            structure: 0,
            size: 0,
            entries: 0,
            root: Link::NONE,
            ahead: Ahead::NONE,
            count: 0,
            places: vec![[0; SLOT_BYTES]; PLACES],
        }
    }

    /// The waiting nodes of a fit state.
    pub fn waiting(&self) -> Vec<Node> {
        self.places[..self.count]
            .iter()
            .filter_map(|place| match read_slot(place, self.size, None) {
                Reading::Node(node) => Some(node),
                Reading::Empty | Reading::Bad => None,
            })
            .collect()
    }

    pub fn set_waiting(&mut self, waiting: &[Node]) {
        self.count = waiting.len();
        self.places = waiting.iter().map(write_slot).collect();
        self.places.resize(PLACES, [0; SLOT_BYTES]);
    }

    pub fn is_fit(&self) -> bool {
        structure_is_known(self.structure)
            && size_is_known(self.size)
            && self.entries <= capacity(self.size)
            && self.places_are_fit()
            && self.root_is_fit()
            && self.ahead_is_fit()
    }

    fn places_are_fit(&self) -> bool {
        if self.places.len() != PLACES || self.count > WAITING_LIMIT {
            return false;
        }
        let waiting = self.waiting();
        waiting.len() == self.count
            && waiting.windows(2).all(|pair| pair[0].key < pair[1].key)
            && self.places[self.count..]
                .iter()
                .all(|place| *place == [0; SLOT_BYTES])
    }

    fn root_is_fit(&self) -> bool {
        if self.entries == 0 {
            return self.root == Link::NONE;
        }
        usize::from(self.root.tag) < leaf_count(self.size)
            && match self.structure {
                MAP => height_possible(self.root.height, self.entries),
                STACK => self.root.height == 1 && self.root.key == self.entries,
                HEAP => self.root.height == 1 && self.root.key == 1,
                _ => {
                    let oldest = self.ahead.key.checked_sub(self.entries);
                    self.root.height == 1 && Some(self.root.key) == oldest
                }
            }
    }

    fn ahead_is_fit(&self) -> bool {
        match self.structure {
            QUEUE if self.entries == 0 => self.ahead.tag == 0,
            QUEUE => usize::from(self.ahead.tag) < leaf_count(self.size),
            _ => self.ahead == Ahead::NONE,
        }
    }
}

pub fn open(structure: u8, size: u8, tree: &mut [u8]) -> State {
    if !structure_is_known(structure) {
        return State::closed(BAD_STRUCTURE);
    }
    if !size_is_known(size) {
        return State::closed(BAD_SIZE);
    }
    if tree.len() != tree_bytes(size) {
        return State::closed(TREE_LENGTH);
    }
    tree.fill(0);
    State {
        structure,
        size,
        ..State::closed(0)
    }
}
