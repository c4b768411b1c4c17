//! Slots, nodes and paths.

use crate::paper::{leaf_count, Link, Slot};

#[derive(Clone, Copy, Debug, PartialEq, Eq)]
pub enum Side {
    Left,
    Right,
}

impl Side {
    pub fn other(self) -> Side {
        match self {
            Side::Left => Side::Right,
            Side::Right => Side::Left,
        }
    }
}

#[derive(Clone, Copy, Debug, PartialEq, Eq)]
pub struct Node {
    pub key: u32,
    pub tag: u16,
    pub value: u64,
    pub left: Link,
    pub right: Link,
}

impl Node {
    pub fn link(&self, side: Side) -> Link {
        match side {
            Side::Left => self.left,
            Side::Right => self.right,
        }
    }

    pub fn link_mut(&mut self, side: Side) -> &mut Link {
        match side {
            Side::Left => &mut self.left,
            Side::Right => &mut self.right,
        }
    }

    /// The greater side's height plus 1.
    pub fn height(&self) -> u32 {
        1 + u32::from(self.left.height.max(self.right.height))
    }

    /// Left height minus right height.
    pub fn balance(&self) -> i32 {
        i32::from(self.left.height) - i32::from(self.right.height)
    }

    /// The link that leads to this node.
    pub fn link_here(&self) -> Link {
        Link {
            height: self.height() as u8,
            key: self.key,
            tag: self.tag,
        }
    }
}

#[derive(Clone, Copy, Debug, PartialEq, Eq)]
pub enum Reading {
    Node(Node),
    Empty,
    Bad,
}

/// The path of a leaf, leaf bucket first, root last.
pub fn path(leaf: u16, size: u8) -> Vec<usize> {
    let mut bucket = leaf_count(size) + usize::from(leaf);
    let mut buckets = vec![bucket];
    while bucket > 1 {
        bucket /= 2;
        buckets.push(bucket);
    }
    buckets
}

/// Whether the path of a leaf passes a bucket: halving, down to 1, gets to it.
pub fn passes(leaf: u16, size: u8, bucket: usize) -> bool {
    let mut reached = leaf_count(size) + usize::from(leaf);
    while reached > bucket.max(1) {
        reached /= 2;
    }
    reached == bucket
}

/// A slot's reading. A place of the state has no bucket to ask about.
pub fn read_slot(slot: &[u8], size: u8, bucket: Option<usize>) -> Reading {
    match slot[0] {
        0 if slot.iter().all(|&byte| byte == 0) => Reading::Empty,
        1 => read_full(slot, size, bucket),
        _ => Reading::Bad,
    }
}

fn read_full(slot: &[u8], size: u8, bucket: Option<usize>) -> Reading {
    let node = Node {
        key: number(slot, 4, 4) as u32,
        tag: number(slot, 16, 2) as u16,
        value: number(slot, 24, 8),
        left: Link {
            height: slot[1],
            key: number(slot, 8, 4) as u32,
            tag: number(slot, 18, 2) as u16,
        },
        right: Link {
            height: slot[2],
            key: number(slot, 12, 4) as u32,
            tag: number(slot, 20, 2) as u16,
        },
    };
    let zero_bytes = slot[3] == 0 && slot[22] == 0 && slot[23] == 0;
    if zero_bytes && node_is_good(&node, size, bucket) {
        Reading::Node(node)
    } else {
        Reading::Bad
    }
}

fn node_is_good(node: &Node, size: u8, bucket: Option<usize>) -> bool {
    let tag_is_leaf = |tag: u16| usize::from(tag) < leaf_count(size);
    let link_is_good =
        |link: Link| tag_is_leaf(link.tag) && (link.height != 0 || link == Link::NONE);
    tag_is_leaf(node.tag)
        && link_is_good(node.left)
        && link_is_good(node.right)
        && bucket.is_none_or(|bucket| passes(node.tag, size, bucket))
}

/// The little-endian number in `length` bytes from `start`.
fn number(bytes: &[u8], start: usize, length: usize) -> u64 {
    bytes[start..start + length]
        .iter()
        .rev()
        .fold(0, |number, &byte| number * 256 + u64::from(byte))
}

pub fn write_slot(node: &Node) -> Slot {
    let mut slot = [0; 32];
    slot[0] = 1;
    slot[1] = node.left.height;
    slot[2] = node.right.height;
    slot[4..8].copy_from_slice(&node.key.to_le_bytes());
    slot[8..12].copy_from_slice(&node.left.key.to_le_bytes());
    slot[12..16].copy_from_slice(&node.right.key.to_le_bytes());
    slot[16..18].copy_from_slice(&node.tag.to_le_bytes());
    slot[18..20].copy_from_slice(&node.left.tag.to_le_bytes());
    slot[20..22].copy_from_slice(&node.right.tag.to_le_bytes());
    slot[24..32].copy_from_slice(&node.value.to_le_bytes());
    slot
}
