//! Runs calls given as words and prints, after each, the call's line, the
//! state and the used slots of the tree.
//!
//! `rounds stack 2 'push 50 : 1 2 3' 'pop : 0 1 1'`
//!
//! The map's calls are `get K`, `put K V` and `remove K`, the heap's `add V`
//! and `take`, the queue's `in V` and `out`. After the colon comes the tape; one with too few numbers is
//! repeated from its start, and none at all is all 0. A first word `last`
//! prints the slots only at the end.

use reference::paper::*;
use reference::{listing, plain, walk};

fn main() {
    let mut words: Vec<String> = std::env::args().skip(1).collect();
    let only_last = words.first().map(String::as_str) == Some("last");
    if only_last {
        words.remove(0);
    }
    let [structure, size, calls @ ..] = words.as_slice() else {
        eprintln!("usage: rounds [last] map|stack|heap|queue SIZE 'CALL : TAPE' ...");
        std::process::exit(2);
    };
    let known = STRUCTURES.iter().position(|name| name == structure);
    let structure = 1 + known.expect("map, stack, heap or queue") as u8;
    let size: u8 = size.parse().expect("a size");
    assert!((1..=GREATEST_SIZE).contains(&size), "a size from 1 to 8");
    let mut tree = vec![0; tree_bytes(size)];
    let mut state = plain::open(structure, size, &mut tree);
    for (at, call) in calls.iter().enumerate() {
        let (ticket, tape) = read_call(call, tape_length(structure, size));
        let mut trace = vec![0; 2 * fetch_rounds(structure, size)];
        let outcome = plain::call(&mut state, &mut tree, &ticket, &tape, &mut trace);
        let line = walk::answer_line(outcome, &trace[..outcome.leaves]);
        print!("{call}\n  {line}  peak {}\n", outcome.peak);
        if !only_last || at + 1 == calls.len() {
            print_store(&state, &tree);
        }
    }
}

fn print_store(state: &plain::State, tree: &[u8]) {
    for line in listing::state_lines(state) {
        println!("  {line}");
    }
    for line in listing::tree_lines(tree, state.size) {
        println!("  {line}");
    }
}

fn read_call(call: &str, numbers: usize) -> ([u8; TICKET_BYTES], Vec<u16>) {
    let (words, tape) = call.split_once(':').unwrap_or((call, ""));
    let mut tape: Vec<u16> = tape
        .split_whitespace()
        .map(|number| number.parse().expect("a tape number"))
        .collect();
    if tape.is_empty() {
        tape.push(0);
    }
    let tape = if tape.len() < numbers {
        tape.iter().copied().cycle().take(numbers).collect()
    } else {
        tape
    };
    (read_ticket(words).bytes(), tape)
}

fn read_ticket(words: &str) -> Ticket {
    let words: Vec<&str> = words.split_whitespace().collect();
    let number = |word: &str| word.parse::<u64>().expect("a number");
    match words[..] {
        ["get", key] => Ticket::new(GET, number(key) as u32, 0),
        ["put", key, value] => Ticket::new(PUT, number(key) as u32, number(value)),
        ["remove", key] => Ticket::new(REMOVE, number(key) as u32, 0),
        ["push", value] => Ticket::new(PUSH, 0, number(value)),
        ["pop"] => Ticket::new(POP, 0, 0),
        ["add", value] => Ticket::new(ADD, 0, number(value)),
        ["take"] => Ticket::new(TAKE, 0, 0),
        ["in", value] => Ticket::new(IN, 0, number(value)),
        ["out"] => Ticket::new(OUT, 0, 0),
        _ => panic!("no such call: {words:?}"),
    }
}
