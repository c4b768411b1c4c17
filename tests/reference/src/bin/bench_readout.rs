//! Reads a repeat count (4 bytes) and a closed store with its output buffer, as
//! `record` has it, from the standard input; reads the store out that many times
//! with `fast`, and prints the file's length plus the sum of its bytes, or 0. With
//! the argument `floor` it only copies the slots and as many waiting places that
//! many times, and prints 0.

use reference::paper::PLACES;
use reference::record::Record;
use reference::{fast, Store};
use std::hint::black_box;
use std::io::{self, Read};

fn main() -> io::Result<()> {
    let mut input = vec![];
    io::stdin().lock().read_to_end(&mut input)?;
    let (repeats, record) = input.split_at(4);
    let repeats = u32::from_le_bytes(repeats.try_into().unwrap());
    let (record, _) = Record::read(record).expect("a whole record");
    if std::env::args().nth(1).as_deref() == Some("floor") {
        copy(repeats, &record.tree);
        println!("0");
        return Ok(());
    }
    let state = fast::State::from_plain(&record.state);
    let mut output = vec![0; record.room];
    let mut length = 0;
    for _ in 0..repeats {
        let result = fast::read_out(black_box(&state), black_box(&record.tree), &mut output);
        length = result.expect("a closed store and enough room");
        black_box(&mut output);
    }
    let sum: usize = output[..length].iter().map(|&byte| usize::from(byte)).sum();
    println!("{}", length + sum);
    Ok(())
}

/// The least that a read-out touches: each slot, and each waiting place as one.
fn copy(repeats: u32, tree: &[u8]) {
    let store = [tree, &[1; 32 * PLACES]].concat();
    let mut space = vec![0; store.len()];
    for _ in 0..repeats {
        space.copy_from_slice(black_box(&store));
        black_box(&mut space);
    }
}
