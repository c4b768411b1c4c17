//! The fields of tickets: random tickets with figures where none belong, and
//! what tickets met by their fields, for the random runs to count.

use crate::paper::*;
use crate::random::Random;

/// Before one random call in so many comes one with a stray field.
pub const STRAY: u64 = 12;

// ---- random tickets

/// So many tickets of such a kind are not all clean.
const TRIES: usize = 99;

/// A kind of the structure that adds an entry, or one that does not; of a map one of those given.
pub fn kind_of(random: &mut Random, structure: u8, adds: bool, of_map: &[u8]) -> u8 {
    match (structure, adds) {
        (MAP, true) => PUT,
        (MAP, false) => random.pick(of_map),
        (STACK, true) => PUSH,
        (STACK, false) => POP,
        (HEAP, true) => ADD,
        (HEAP, false) => TAKE,
        (_, true) => IN,
        (_, false) => OUT,
    }
}

/// A ticket with zeros in the fields that its kind does not use. A put uses both
/// and goes unasked: a table by which it could be stray would be found out.
pub fn clean(kind: u8, key: u32, value: u64) -> Ticket {
    let ticket = Ticket::new(kind, key, value);
    match kind {
        PUT => ticket,
        _ => ticket.cleaned(),
    }
}

/// A ticket of the structure with a stray field. A put can have none.
pub fn stray_of(random: &mut Random, structure: u8) -> Ticket {
    let kinds: &[u8] = match structure {
        MAP => &[GET, REMOVE],
        STACK => &[PUSH, POP],
        HEAP => &[ADD, TAKE],
        _ => &[IN, OUT],
    };
    let kind = random.pick(kinds);
    stray(random, kind)
}

/// A ticket of a kind that can have a stray field, with one.
pub fn stray(random: &mut Random, kind: u8) -> Ticket {
    let tries = (0..TRIES).map(|_| any(random, kind));
    let mut stray = tries.filter(|ticket| !ticket.is_clean());
    stray.next().unwrap_or(Ticket::new(kind, 1, 1))
}

/// A ticket with any figures, each often 0 or with one byte that is not.
pub fn any(random: &mut Random, kind: u8) -> Ticket {
    Ticket::new(kind, figure(random, 4) as u32, figure(random, 8))
}

/// A number of so many bytes.
fn figure(random: &mut Random, bytes: u64) -> u64 {
    let most = u64::MAX >> (64 - 8 * bytes);
    let one_byte = (1 + random.below(255)) << (8 * random.below(bytes));
    let any = random.next() & most;
    random.pick(&[0, 0, 0, 1, one_byte, one_byte, any, most])
}

// ---- what tickets met

const OF_ANOTHER: &str = "5 for another structure's kind, clean";
const OF_ANOTHER_STRAY: &str = "5 for another structure's kind, stray";
const UNKNOWN: &str = "5 for an unknown kind, no figure";
const UNKNOWN_WITH_FIGURES: &str = "5 for an unknown kind, figures";
const CLOSED_STORE: &str = "1 for a stray field on a closed store";

/// Each kind with and without figures in each field: 19, or it passes. Each
/// byte of the fields that alone gives 19. Then what is checked before.
pub fn names() -> Vec<String> {
    let mut names: Vec<String> = kinds_and_figures().map(verdict).collect();
    names.extend((1..TICKET_BYTES).map(alone));
    let before = [
        OF_ANOTHER,
        OF_ANOTHER_STRAY,
        UNKNOWN,
        UNKNOWN_WITH_FIGURES,
        CLOSED_STORE,
    ];
    names.extend(before.map(str::to_string));
    names
}

/// A ticket for each known kind and each choice of fields that are not zero.
pub fn kinds_and_figures() -> impl Iterator<Item = Ticket> {
    let figures = [(0, 0), (1, 0), (0, 1), (1, 1)];
    (GET..=OUT).flat_map(move |kind| figures.map(|(key, value)| Ticket::new(kind, key, value)))
}

/// The kind and the fields that are not zero, in words.
pub fn words(ticket: Ticket) -> String {
    let (name, _) = KINDS[usize::from(ticket.kind) - 1];
    let figures = match (ticket.key != 0, ticket.value != 0) {
        (false, false) => "no figure",
        (true, false) => "a key",
        (false, true) => "a value",
        (true, true) => "a key and a value",
    };
    format!("{name} with {figures}")
}

fn verdict(ticket: Ticket) -> String {
    match ticket.is_clean() {
        true => format!("{} passes", words(ticket)),
        false => format!("19 for {}", words(ticket)),
    }
}

fn alone(at: usize) -> String {
    format!("19 for byte {at} alone")
}

/// The only byte of the fields that is not zero.
pub fn only_byte(ticket: Ticket) -> Option<usize> {
    let bytes = ticket.bytes();
    let mut filled = (1..TICKET_BYTES).filter(|&at| bytes[at] != 0);
    filled.next().filter(|_| filled.next().is_none())
}

/// What a ticket met on a structure, with the number of its refusal or 0.
pub fn met(structure: u8, ticket: &[u8], number: u8) -> Vec<String> {
    if ticket.len() != TICKET_BYTES {
        return vec![];
    }
    let ticket = Ticket::read(ticket);
    let own = kind_fits(structure, ticket.kind);
    match number {
        FOREIGN_KIND => vec![foreign(ticket).to_string()],
        CLOSED if own && !ticket.is_clean() => vec![CLOSED_STORE.to_string()],
        CLOSED..=TICKET_LENGTH => vec![],
        STRAY_FIELD => {
            let byte = only_byte(ticket).map(alone);
            let words = format!("19 for {}", words(ticket));
            [words].into_iter().chain(byte).collect()
        }
        _ => vec![format!("{} passes", words(ticket))],
    }
}

fn foreign(ticket: Ticket) -> &'static str {
    let figures = ticket.key != 0 || ticket.value != 0;
    match (uses(ticket.kind), ticket.is_clean()) {
        (Some(_), true) => OF_ANOTHER,
        (Some(_), false) => OF_ANOTHER_STRAY,
        (None, _) if figures => UNKNOWN_WITH_FIGURES,
        (None, _) => UNKNOWN,
    }
}
