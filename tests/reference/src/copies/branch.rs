//! What the copying of random files met, for the runs to count: told from the
//! bytes before and after.

use super::{rules, MIB, PIECES};
use crate::copy::Copied;
use crate::fields::{kinds_and_figures, only_byte, words};
use crate::paper::*;

const TICKETS: &str = "tickets copied";
const SINGLE_BYTES: &str = "tickets copied with one byte alone";
const ENDS: &str = "short ends copied";
const FILES: &str = "files copied";

const UNKNOWN: &str = "unknown kind with no figure kept";
const UNKNOWN_WITH_FIGURES: &str = "unknown kind with figures kept";

/// A group and a name.
pub type Name = (&'static str, String);

/// Every branch, by group.
pub fn all_branches() -> Vec<(&'static str, Vec<String>)> {
    let tickets = kinds_and_figures().map(|ticket| fate(ticket, !ticket.is_clean()));
    let unknown = [UNKNOWN, UNKNOWN_WITH_FIGURES].map(str::to_string);
    let kinds = GET..=OUT;
    let single = kinds.flat_map(|kind| (1..TICKET_BYTES).map(move |at| single(kind, at)));
    vec![
        (TICKETS, tickets.chain(unknown).collect()),
        (SINGLE_BYTES, single.collect()),
        (ENDS, (0..TICKET_BYTES).map(end).collect()),
        (FILES, [owned(&FILE_WORDS), piece_words()].concat()),
        (rules::GROUP, rules::names()),
    ]
}

const FILE_WORDS: [&str; 8] = [
    "empty",
    "no ticket changed",
    "some tickets changed",
    "all tickets changed",
    "every kind with figures",
    "over 64 KiB",
    "over 1 MiB",
    "changed ticket across a multiple of 65536",
];

fn owned(words: &[&str]) -> Vec<String> {
    words.iter().map(|word| word.to_string()).collect()
}

fn piece_words() -> Vec<String> {
    let each = |piece: usize| [-1, 0, 1].map(|more| near(piece, more));
    PIECES.into_iter().flat_map(each).collect()
}

fn near(piece: usize, more: isize) -> String {
    let how = match more {
        0 => "just",
        1 => "a byte over",
        _ => "a byte under",
    };
    format!("{how} a multiple of {piece}")
}

fn fate(ticket: Ticket, changed: bool) -> String {
    let fate = if changed { "zeroed" } else { "kept" };
    format!("{} {fate}", words(ticket))
}

fn single(kind: u8, at: usize) -> String {
    format!("{} {at}", KINDS[usize::from(kind) - 1].0)
}

fn end(length: usize) -> String {
    format!("{length} bytes")
}

// ---- what a file met

pub fn branches(old: &[u8], copy: &Copied) -> Vec<Name> {
    let mut met = vec![];
    let pairs = old
        .chunks_exact(TICKET_BYTES)
        .zip(copy.bytes.chunks(TICKET_BYTES));
    for (old, new) in pairs {
        met.extend(of_ticket(Ticket::read(old), old != new));
    }
    met.extend(of_end(old));
    let words = of_file(old, copy).into_iter();
    met.extend(words.map(|words| (FILES, words)));
    met
}

fn of_ticket(ticket: Ticket, changed: bool) -> Vec<Name> {
    if uses(ticket.kind).is_none() {
        let figures = ticket.key != 0 || ticket.value != 0;
        let words = if figures {
            UNKNOWN_WITH_FIGURES
        } else {
            UNKNOWN
        };
        return vec![(TICKETS, words.to_string())];
    }
    let byte = only_byte(ticket).map(|at| (SINGLE_BYTES, single(ticket.kind, at)));
    let fate = (TICKETS, fate(ticket, changed));
    [fate].into_iter().chain(byte).collect()
}

/// A short end counts if a whole ticket that starts so would be changed.
fn of_end(old: &[u8]) -> Option<Name> {
    let end_bytes = old.chunks_exact(TICKET_BYTES).remainder();
    let mut whole = [0; TICKET_BYTES];
    whole[..end_bytes.len()].copy_from_slice(end_bytes);
    let tells = end_bytes.len() < 2 || !Ticket::read(&whole).is_clean();
    tells.then(|| (ENDS, end(end_bytes.len())))
}

fn of_file(old: &[u8], copy: &Copied) -> Vec<String> {
    let tickets = (old.len() / TICKET_BYTES) as u64;
    let Copied { bytes, changed } = copy;
    let across = |at: usize| {
        let start = at - at % TICKET_BYTES;
        let ticket = start..old.len().min(start + TICKET_BYTES);
        start < at && old[ticket.clone()] != bytes[ticket]
    };
    let mut multiples = (65536..old.len()).step_by(65536);
    let facts = [
        old.is_empty(),
        *changed == 0 && tickets > 0,
        0 < *changed && *changed < tickets,
        *changed == tickets && tickets > 0,
        has_every_kind(old),
        old.len() > 1 << 16,
        old.len() > MIB,
        multiples.any(across),
    ];
    let facts = FILE_WORDS.iter().zip(facts);
    let words = facts.filter(|(_, holds)| *holds);
    let mut met: Vec<String> = words.map(|(word, _)| word.to_string()).collect();
    for piece in PIECES {
        for more in [-1, 0, 1] {
            let length = old.len() as isize - more;
            if length > 0 && length % piece as isize == 0 {
                met.push(near(piece, more));
            }
        }
    }
    met
}

fn has_every_kind(old: &[u8]) -> bool {
    let mut seen = [false; 256];
    for ticket in old.chunks_exact(TICKET_BYTES).map(Ticket::read) {
        seen[usize::from(ticket.kind)] |= ticket.key != 0 && ticket.value != 0;
    }
    seen.iter().all(|seen| *seen)
}
