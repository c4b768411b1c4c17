//! How often the calls of random inputs met each branch: of the steps and of
//! the damage found, as `plain` tells them, of the tickets' fields, and of the
//! peaks, by structure.

use crate::fields;
use crate::paper::*;
use crate::plain::{call_and_met, Groups, Met, State, DAMAGE_FOUND, STEPS};
use crate::walk::{each_event, Event};
use std::collections::HashMap;
use std::io;

/// The groups of the peaks' branches, by structure: of whole stores, and of
/// those that damage is done to.
const PEAKS: [&str; 4] = [
    "peaks of the map",
    "peaks of the stack",
    "peaks of the heap",
    "peaks of the queue",
];
const PEAKS_AT_DAMAGE: [&str; 4] = [
    "peaks of a damaged map",
    "peaks of a damaged stack",
    "peaks of a damaged heap",
    "peaks of a damaged queue",
];

/// The groups of the tickets' fields, in the same way.
const FIELDS: [&str; 2] = ["fields of tickets", "fields of tickets to damaged stores"];

const ZERO: &str = "0 and answered";
const BELOW_LIMIT: &str = "1 to 63 and answered";
const AT_LIMIT: &str = "64 and answered";
const FULL_STORE: &str = "above 0 on a full store";
const LARGEST_IN_FETCH: &str = "largest in a fetch round";
const LARGEST_IN_PUT: &str = "largest in put rounds alone";
const OVERFLOW_IN_FETCH: &str = "65 at overflow in a fetch round";
const OVERFLOW_IN_PUT: &str = "65 at overflow in a put round";
const AFTER_CLOSING: &str = "0 on a closed store";
const FOREIGN: &str = "0 for a foreign kind";
const STRAY: &str = "0 for a stray field";
const STRAY_WAITING: &str = "0 for a stray field while nodes wait";
const DAMAGE_AT_ONCE: &str = "0 at damage in the first round";
const DAMAGE_AT_ONCE_WAITING: &str = "0 at damage in the first round while nodes wait";
const DAMAGE_IN_FETCH: &str = "above 0 at damage in a later fetch round";
const DAMAGE_IN_PUT: &str = "above 0 at damage in a put round";

const OF_CALLS: [&str; 12] = [
    ZERO,
    BELOW_LIMIT,
    AT_LIMIT,
    FULL_STORE,
    LARGEST_IN_FETCH,
    LARGEST_IN_PUT,
    OVERFLOW_IN_FETCH,
    OVERFLOW_IN_PUT,
    AFTER_CLOSING,
    FOREIGN,
    STRAY,
    STRAY_WAITING,
];
const OF_DAMAGE: [&str; 4] = [
    DAMAGE_AT_ONCE,
    DAMAGE_AT_ONCE_WAITING,
    DAMAGE_IN_FETCH,
    DAMAGE_IN_PUT,
];

/// A group and a name.
type Name = (&'static str, String);

pub struct Counts {
    damages: bool,
    met: HashMap<Name, usize>,
}

impl Counts {
    /// Of inputs with or without damage.
    pub fn new(damages: bool) -> Counts {
        let met = HashMap::new();
        Counts { damages, met }
    }

    /// Makes an input's calls over `plain` and counts them; tells each event.
    pub fn run(
        &mut self,
        input: &[u8],
        tell: impl FnMut(Event) -> io::Result<()>,
    ) -> io::Result<()> {
        each_event(
            self.damages,
            input,
            |state: &mut State, tree, ticket, tape, trace| {
                let (outcome, met) = call_and_met(state, tree, ticket, tape, trace);
                self.add(state, ticket, outcome, &met);
                outcome
            },
            tell,
        )
    }

    /// A call, with the state that it left.
    fn add(&mut self, state: &State, ticket: &[u8], outcome: Outcome, met: &Met) {
        for branch in &met.branches {
            self.count(owned(branch.name()));
        }
        let group = FIELDS[usize::from(self.damages)];
        for name in fields::met(state.structure, ticket, outcome.cause()) {
            self.count((group, name));
        }
        let group = self.peaks_of(state.structure);
        for name in peak_branches(state, outcome, met) {
            self.count(owned((group, name)));
        }
    }

    fn count(&mut self, name: Name) {
        *self.met.entry(name).or_default() += 1;
    }

    fn peaks_of(&self, structure: u8) -> &'static str {
        let groups = match self.damages {
            true => PEAKS_AT_DAMAGE,
            false => PEAKS,
        };
        groups[usize::from(structure) - 1]
    }

    /// All that is to be met, with how often it was.
    pub fn all(&self) -> Vec<(Name, usize)> {
        let names = self.names().into_iter();
        names
            .map(|name| {
                let count = self.met.get(&name).copied().unwrap_or(0);
                (name, count)
            })
            .collect()
    }

    fn names(&self) -> Vec<Name> {
        let groups: &Groups = match self.damages {
            true => DAMAGE_FOUND,
            false => STEPS,
        };
        let branches = groups.iter().flat_map(|(_, branches)| branches.iter());
        let mut names: Vec<Name> = branches.map(|(branch, _)| owned(branch.name())).collect();
        let group = FIELDS[usize::from(self.damages)];
        names.extend(fields::names().into_iter().map(|name| (group, name)));
        for structure in MAP..=QUEUE {
            let group = self.peaks_of(structure);
            let peaks = self.peak_names(structure);
            names.extend(peaks.into_iter().map(|name| owned((group, name))));
        }
        names
    }

    fn peak_names(&self, structure: u8) -> Vec<&'static str> {
        let mut names = OF_CALLS.to_vec();
        if self.damages {
            names.extend(OF_DAMAGE);
            if fetch_rounds(structure, 1) == 1 {
                names.retain(|&name| name != DAMAGE_IN_FETCH);
            }
        }
        names
    }
}

fn owned((group, name): (&'static str, &str)) -> Name {
    (group, name.to_string())
}

/// What a call's peak is a case of.
fn peak_branches(state: &State, outcome: Outcome, met: &Met) -> Vec<&'static str> {
    let fetches = fetch_rounds(state.structure, state.size);
    let fetching = outcome.leaves <= fetches;
    match (outcome.answer, outcome.peak) {
        (Answer::Refused(CLOSED), 0) => vec![AFTER_CLOSING],
        (Answer::Refused(FOREIGN_KIND), 0) => vec![FOREIGN],
        (Answer::Refused(STRAY_FIELD), 0) => match state.count {
            0 => vec![STRAY],
            _ => vec![STRAY_WAITING],
        },
        (Answer::Refused(DAMAGE), 0) if outcome.leaves == 1 => match met.waiting {
            0 => vec![DAMAGE_AT_ONCE],
            _ => vec![DAMAGE_AT_ONCE_WAITING],
        },
        (Answer::Refused(DAMAGE), 1..) if fetching => vec![DAMAGE_IN_FETCH],
        (Answer::Refused(DAMAGE), 1..) => vec![DAMAGE_IN_PUT],
        (Answer::Refused(OVERFLOW), 65) if fetching => vec![OVERFLOW_IN_FETCH],
        (Answer::Refused(OVERFLOW), 65) => vec![OVERFLOW_IN_PUT],
        (Answer::Refused(FULL), 1..) => vec![FULL_STORE, largest(outcome, &met.closes[..fetches])],
        (Answer::Refused(_), _) => vec![],
        (_, 0) => vec![ZERO],
        (_, WAITING_LIMIT) => vec![AT_LIMIT, largest(outcome, &met.closes[..fetches])],
        (_, _) => vec![BELOW_LIMIT, largest(outcome, &met.closes[..fetches])],
    }
}

/// Whether a fetch round's close has the peak.
fn largest(outcome: Outcome, fetches: &[usize]) -> &'static str {
    match fetches.contains(&outcome.peak) {
        true => LARGEST_IN_FETCH,
        false => LARGEST_IN_PUT,
    }
}
