//! Listings of a store, for worked outputs.

use crate::paper::*;
use crate::plain::{read_slot, Node, Reading, State};

/// A used slot: its byte offset in the tree, and its reading.
pub fn used_slots(tree: &[u8], size: u8) -> Vec<(usize, Reading)> {
    tree.chunks(SLOT_BYTES)
        .enumerate()
        .map(|(at, slot)| {
            let bucket = 1 + at / BUCKET_SLOTS;
            (at * SLOT_BYTES, read_slot(slot, size, Some(bucket)))
        })
        .filter(|(_, reading)| *reading != Reading::Empty)
        .collect()
}

/// The used slots, a line each: byte offset, key, value, tag and links.
pub fn tree_lines(tree: &[u8], size: u8) -> Vec<String> {
    let line = |(offset, reading): &(usize, Reading)| match reading {
        Reading::Node(node) => format!("byte {offset}: {}", node_text(node)),
        Reading::Empty => format!("byte {offset}: empty"),
        Reading::Bad => format!("byte {offset}: bad"),
    };
    used_slots(tree, size).iter().map(line).collect()
}

/// The state: its fields, then a line a waiting place.
pub fn state_lines(state: &State) -> Vec<String> {
    let mut lines = vec![format!(
        "mark {}, structure {}, size {}, entries {}, root {}, waiting {}",
        state.mark,
        state.structure,
        state.size,
        state.entries,
        link_text(state.root),
        state.count,
    )];
    if state.structure == QUEUE {
        let Ahead { key, tag } = state.ahead;
        lines[0] += &format!(", next key {key}, tag drawn ahead {tag}");
    }
    // A size out of range has no leaves to hold tags against.
    let size = state.size.min(GREATEST_SIZE);
    for place in state.places.iter().take(state.count) {
        lines.push(match read_slot(place, size, None) {
            Reading::Node(node) => format!("waiting: {}", node_text(&node)),
            Reading::Empty => "waiting: empty".to_string(),
            Reading::Bad => "waiting: bad".to_string(),
        });
    }
    lines
}

fn node_text(node: &Node) -> String {
    format!(
        "key {} value {} tag {} left {} right {}",
        node.key,
        node.value,
        node.tag,
        link_text(node.left),
        link_text(node.right),
    )
}

/// Height, key and tag, or a dash for no link.
fn link_text(link: Link) -> String {
    match link.height {
        0 => "-".to_string(),
        height => format!("(height {height}, key {}, tag {})", link.key, link.tag),
    }
}
