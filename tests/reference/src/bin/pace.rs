//! Nanoseconds a call and a round of `fast`, and of `plain` for comparison,
//! on stores kept about half full.

use reference::paper::*;
use reference::random::Random;
use reference::{fast, plain, Store};
use std::time::{Duration, Instant};

fn main() {
    println!("structure size    fast ns/call  ns/round   plain ns/call");
    for (structure, name) in (1..).zip(STRUCTURES) {
        for size in 1..=GREATEST_SIZE {
            let rounds = 2 * fetch_rounds(structure, size);
            let quick = pace::<fast::State>(structure, size);
            let slow = pace::<plain::State>(structure, size);
            println!(
                "{name:9} {size:4} {quick:15.0} {:9.0} {slow:15.0}",
                quick / rounds as f64,
            );
        }
    }
}

/// Calls timed at once, so that the clock itself does not count.
const BATCH: usize = 256;

fn pace<S: Store>(structure: u8, size: u8) -> f64 {
    let numbers = tape_length(structure, size);
    let mut tree = vec![0; tree_bytes(size)];
    let mut store = S::open(structure, size, &mut tree);
    let mut trace = vec![0; 2 * fetch_rounds(structure, size)];
    let mut random = Random::new(1);
    let (mut batches, mut spent) = (0, Duration::ZERO);
    while spent < Duration::from_millis(200) {
        let tapes: Vec<u16> = (0..BATCH * numbers).map(|_| random.next() as u16).collect();
        let tickets: Vec<_> = (0..BATCH)
            .map(|_| ticket(&mut random, structure, size).bytes())
            .collect();
        let start = Instant::now();
        for (ticket, tape) in tickets.iter().zip(tapes.chunks(numbers)) {
            let outcome = store.call(&mut tree, ticket, tape, &mut trace);
            assert!(!matches!(
                outcome.answer,
                Answer::Refused(1..=9 | STRAY_FIELD)
            ));
        }
        spent += start.elapsed();
        batches += 1;
    }
    spent.as_nanos() as f64 / (batches * BATCH) as f64
}

fn ticket(random: &mut Random, structure: u8, size: u8) -> Ticket {
    let draw = random.next();
    let kind = match structure {
        MAP => GET + (draw % 3) as u8,
        STACK => PUSH + (draw % 2) as u8,
        HEAP => ADD + (draw % 2) as u8,
        _ => IN + (draw % 2) as u8,
    };
    Ticket::new(kind, (draw >> 8) as u32 % (2 << size), draw).cleaned()
}
