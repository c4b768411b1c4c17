//! A store by the rule before 19 under a file's tickets, and one by the rule of
//! now under their copies: both answer and become the same.

use super::branch::Name;
use crate::paper::*;
use crate::plain::{self, call_by, Rule};
use crate::random::Random;

pub const GROUP: &str = "old rule on tickets, new rule on their copies";
/// No more tickets of a file are tried than this.
const MOST: usize = 150;

pub fn names() -> Vec<String> {
    let mut names = vec![];
    for structure in MAP..=QUEUE {
        let all = ["clean answered", "clean 5", "clean 10"];
        let changed = ["changed answered", "changed 5", "changed 10"];
        let words = all.into_iter().chain(changed).chain(["short end 4"]);
        // A put is never changed, and no other kind finds a map full.
        let words = words.filter(|words| (structure, *words) != (MAP, "changed 10"));
        names.extend(words.map(|words| name(structure, words)));
    }
    names
}

fn name(structure: u8, words: &str) -> String {
    format!("{}, {words}", STRUCTURES[usize::from(structure) - 1])
}

/// A store by one of the rules.
struct Store {
    rule: Rule,
    state: plain::State,
    tree: Vec<u8>,
}

impl Store {
    fn open(rule: Rule, structure: u8, size: u8) -> Store {
        let mut tree = vec![0; tree_bytes(size)];
        let state = plain::open(structure, size, &mut tree);
        Store { rule, state, tree }
    }

    /// What a call returns and reveals.
    fn call(&mut self, ticket: &[u8], tape: &[u16]) -> (Outcome, Vec<u16>) {
        let mut trace = vec![0; 2 * fetch_rounds(self.state.structure, self.state.size)];
        let Store { rule, state, tree } = self;
        let (outcome, _) = call_by(*rule, state, tree, ticket, tape, &mut trace);
        (outcome, trace)
    }
}

/// Tries a file's first tickets and their copies, its short end too, on a store
/// of any structure; what was met. It fails where the two differ, or where 19
/// is not just for what the copying changes.
pub fn both_rules(random: &mut Random, old: &[u8], copy: &[u8]) -> Vec<Name> {
    let structure = MAP + random.below(4) as u8;
    let size = 1 + random.below(4) as u8;
    let mut before = Store::open(Rule::Ignored, structure, size);
    let mut now = Store::open(Rule::Zero, structure, size);
    let mut met = vec![];
    let pairs = old.chunks(TICKET_BYTES).zip(copy.chunks(TICKET_BYTES));
    for (ticket, cleaned) in pairs.take(MOST) {
        let tape: Vec<u16> = (0..tape_length(structure, size))
            .map(|_| random.next() as u16)
            .collect();
        let changed = ticket != cleaned;
        if changed && kind_fits(structure, ticket[0]) {
            let (outcome, _) = now.call(ticket, &tape);
            assert_eq!(outcome, Outcome::refused(STRAY_FIELD));
        }
        let (one, other) = (before.call(ticket, &tape), now.call(cleaned, &tape));
        assert!(one == other, "the rules differ on {ticket:?}");
        assert!(before.state == now.state && before.tree == now.tree);
        let fate = if changed { "changed" } else { "clean" };
        let words = match one.0.cause() {
            0 => format!("{fate} answered"),
            TICKET_LENGTH => "short end 4".to_string(),
            number => format!("{fate} {number}"),
        };
        met.push((GROUP, name(structure, &words)));
    }
    met
}
