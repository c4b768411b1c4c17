//! Random files of tickets, each from a seed of its own, for the copying program.
//! Seeds in a row go through every plan.

mod branch;
mod rules;

pub use branch::{all_branches, branches, Name};
pub use rules::both_rules;

use crate::fields;
use crate::paper::*;
use crate::random::Random;

/// What makes the file of a seed, with the number of its turn.
type Plan = fn(&mut Random, u64) -> Vec<u8>;

const PLANS: [Plan; 12] = [
    every_length,
    short_end,
    every_kind,
    single_bytes,
    clean,
    all_changed,
    one_changed,
    any_bytes,
    |random, _| near_a_multiple(random, PIECES[0]),
    |random, _| near_a_multiple(random, PIECES[1]),
    |random, _| near_a_multiple(random, PIECES[2]),
    large,
];

/// Lengths in which a program may read or write, two of them whole tickets.
pub const PIECES: [usize; 3] = [65536, 13 * 4096, 13 * 5041];
pub const MIB: usize = 1 << 20;

/// The file of a seed.
pub fn file(seed: u64) -> Vec<u8> {
    let plans = PLANS.len() as u64;
    PLANS[(seed % plans) as usize](&mut Random::new(seed), seed / plans)
}

// ---- tickets

fn known_kind(random: &mut Random) -> u8 {
    1 + random.below(KINDS.len() as u64) as u8
}

/// One of a known kind mostly, with a stray field or not.
fn ticket(random: &mut Random) -> Ticket {
    let kind = match random.below(8) {
        0 => random.next() as u8,
        _ => known_kind(random),
    };
    fields::any(random, kind)
}

/// One that the program changes.
fn changed(random: &mut Random) -> Ticket {
    match known_kind(random) {
        PUT => changed(random),
        kind => fields::stray(random, kind),
    }
}

fn bytes(tickets: impl IntoIterator<Item = Ticket>) -> Vec<u8> {
    let tickets = tickets.into_iter();
    tickets.flat_map(|ticket| ticket.bytes()).collect()
}

/// A file of so many bytes; a short end is a part of a ticket that would be
/// changed, with no zero among its fields.
fn of_length(random: &mut Random, length: usize) -> Vec<u8> {
    let whole = length / TICKET_BYTES;
    let mut file = bytes((0..whole).map(|_| ticket(random)));
    let kind = random.pick(&[POP, TAKE, OUT]);
    let end = Ticket::new(kind, u32::MAX, u64::MAX).bytes();
    file.extend(&end[..length % TICKET_BYTES]);
    file
}

// ---- plans

/// 0 to 39 bytes, in turn.
fn every_length(random: &mut Random, turn: u64) -> Vec<u8> {
    of_length(random, (turn % 40) as usize)
}

/// Some tickets and an end of 1 to 12 bytes, in turn.
fn short_end(random: &mut Random, turn: u64) -> Vec<u8> {
    let end = 1 + (turn % 12) as usize;
    let tickets = random.index(60);
    of_length(random, TICKET_BYTES * tickets + end)
}

/// Every kind, 0 to 255, with both fields filled, in any order.
fn every_kind(random: &mut Random, _: u64) -> Vec<u8> {
    let mut kinds: Vec<u8> = (0..=255).collect();
    random.shuffle(&mut kinds);
    bytes(kinds.into_iter().map(|kind| {
        let (key, value) = (random.next() as u32 | 1, random.next() | 1);
        Ticket::new(kind, key, value)
    }))
}

/// Every known kind with every one of the 12 bytes alone, in any order.
fn single_bytes(random: &mut Random, _: u64) -> Vec<u8> {
    let kinds = GET..=OUT;
    let mut places: Vec<(u8, usize)> = kinds
        .flat_map(|kind| (1..TICKET_BYTES).map(move |at| (kind, at)))
        .collect();
    random.shuffle(&mut places);
    let mut file = vec![0; TICKET_BYTES * places.len()];
    for (ticket, (kind, at)) in file.chunks_mut(TICKET_BYTES).zip(places) {
        ticket[0] = kind;
        ticket[at] = random.pick(&[1, 128, 255]);
    }
    file
}

fn clean_tickets(random: &mut Random) -> Vec<Ticket> {
    let tickets = 1 + random.below(300);
    (0..tickets).map(|_| ticket(random).cleaned()).collect()
}

fn clean(random: &mut Random, _: u64) -> Vec<u8> {
    bytes(clean_tickets(random))
}

fn all_changed(random: &mut Random, _: u64) -> Vec<u8> {
    let tickets = 1 + random.below(300);
    bytes((0..tickets).map(|_| changed(random)))
}

/// The first ticket, the last, or another.
fn one_changed(random: &mut Random, _: u64) -> Vec<u8> {
    let mut tickets = clean_tickets(random);
    let last = tickets.len() - 1;
    let at = random.pick(&[0, last, last / 2, last * 3 / 4]);
    tickets[at] = changed(random);
    bytes(tickets)
}

fn any_bytes(random: &mut Random, _: u64) -> Vec<u8> {
    let length = random.index(4000);
    (0..length).map(|_| random.next() as u8).collect()
}

/// A length near one, two or three times a piece's.
fn near_a_multiple(random: &mut Random, piece: usize) -> Vec<u8> {
    let times = 1 + random.index(3);
    let any = random.index(29);
    let more = random.pick(&[13, 14, 15, any]);
    of_length(random, times * piece + more - 14)
}

/// Over 64 KiB; one in eight over 1 MiB.
fn large(random: &mut Random, turn: u64) -> Vec<u8> {
    let least = if turn.is_multiple_of(8) { MIB } else { 1 << 16 };
    let more = 1 + random.index(100_000);
    of_length(random, least + more)
}
