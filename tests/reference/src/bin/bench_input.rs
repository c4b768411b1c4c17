//! An input for the benchmark, in the walk program's format:
//! `bench_input STRUCTURE SIZE CALLS SEED INPUT PATHS` writes it to INPUT, and
//! to PATHS the same with each call's leaves in place of its tape's first 2F
//! numbers, so that the floor copies the same paths.
//!
//! Tapes are uniform. The map's calls are get, put and remove alike, of half
//! as many keys again as there is room for, so that it is three quarters full
//! in the long run; the stack's are push and pop alike, and the queue's in and
//! out, so that they are half full. The heap's are the more often add the emptier it is, so that it is about five
//! eighths full. With `full` for STRUCTURE a map is filled, and from then on all
//! calls put keys that it holds.

use reference::fast;
use reference::inputs::call_bytes;
use reference::paper::*;
use reference::random::Random;
use std::{env, fs, io};

fn main() -> io::Result<()> {
    let words: Vec<String> = env::args().skip(1).collect();
    let [structure, size, calls, seed, input, paths] = words.as_slice() else {
        eprintln!("usage: bench_input STRUCTURE SIZE CALLS SEED INPUT PATHS");
        std::process::exit(2);
    };
    let number = |word: &str| word.parse::<u64>().expect("a number");
    let (structure, next): (u8, Next) = match structure.as_str() {
        "full" => (MAP, put_held),
        _ => (number(structure) as u8, any_call),
    };
    let size = number(size) as u8;
    let mut random = Random::new(number(seed));
    let (with_tapes, with_leaves) = generate(&mut random, structure, size, number(calls), next);
    fs::write(input, with_tapes)?;
    fs::write(paths, with_leaves)
}

/// The next ticket, for a structure, a size and how many entries there are.
type Next = fn(&mut Random, u8, u8, u32) -> Ticket;

fn generate(
    random: &mut Random,
    structure: u8,
    size: u8,
    calls: u64,
    next: Next,
) -> (Vec<u8>, Vec<u8>) {
    let (leaves, numbers) = (
        2 * fetch_rounds(structure, size),
        tape_length(structure, size),
    );
    let mut tree = vec![0; tree_bytes(size)];
    let mut state = fast::open(structure, size, &mut tree);
    assert_eq!(state.mark, 0, "structure 1 to 4, size 1 to 8");
    let (mut with_tapes, mut with_leaves) = (vec![structure, size], vec![structure, size]);
    // A tape, and a trace with room for as many numbers, more than it needs.
    let (mut tape, mut trace) = (vec![0; numbers], vec![0; numbers]);
    for _ in 0..calls {
        let ticket = next(random, structure, size, state.entries);
        tape.fill_with(|| random.next() as u16);
        let outcome = fast::call(&mut state, &mut tree, &ticket.bytes(), &tape, &mut trace);
        assert_eq!(outcome.leaves, leaves, "an overflow: take another seed");
        with_tapes.extend(call_bytes(ticket, &tape));
        with_leaves.extend(call_bytes(ticket, &trace));
    }
    (with_tapes, with_leaves)
}

/// A map gets the keys from 0 on, until it is full.
fn put_held(random: &mut Random, _: u8, size: u8, entries: u32) -> Ticket {
    let room = capacity(size);
    let key = match entries < room {
        true => entries,
        false => random.below(u64::from(room)) as u32,
    };
    Ticket::new(PUT, key, random.next())
}

fn any_call(random: &mut Random, structure: u8, size: u8, entries: u32) -> Ticket {
    let room = u64::from(capacity(size));
    let kind = match structure {
        MAP => random.pick(&[GET, PUT, REMOVE]),
        STACK => random.pick(&[PUSH, POP]),
        QUEUE => random.pick(&[IN, OUT]),
        _ if 4 * u64::from(entries) <= random.below(5 * room) => ADD,
        _ => TAKE,
    };
    let key = random.below(room * 3 / 2 + 1) as u32;
    Ticket::new(kind, key, random.next()).cleaned()
}
