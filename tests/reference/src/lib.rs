//! A second, independent implementation of the oblivious settings store.
//!
//! - `paper`: the numbers and words of the paper that every part uses.
//! - `plain`: the store written for reading, over Vecs and recursion.
//! - `fast`: the same store written for speed, over fixed arrays.
//! - `origin`: the origin rule, a machine with no buckets and no tape.
//! - `walk`, `readout`, `listing`: what the programs print.
//! - `inputs`, `damaged`, `random`: random inputs of the walk program and of
//!   `damaged_calls`, from seeds.
//! - `fields`: tickets with figures where none belong, and what tickets met.
//! - `counts`: what the calls of random inputs met.
//! - `copy`, `copies`: the copying program, and random files of tickets from
//!   seeds.
//! - `record`, `stores`: closed stores as bytes, and random ones from seeds.
//! - `host`: the store over byte buffers, as a C host calls it.
//! - `lent`: random calls of a C host with their buffers, from seeds.
//! - `checksum`: what the benchmark compares, and `paths` prints.

pub mod checksum;
pub mod copies;
pub mod copy;
pub mod counts;
pub mod damaged;
pub mod fast;
pub mod fields;
pub mod host;
pub mod inputs;
pub mod lent;
pub mod listing;
pub mod origin;
pub mod paper;
pub mod plain;
pub mod random;
pub mod readout;
pub mod record;
pub mod stores;
pub mod walk;

use paper::Outcome;

/// What `plain` and `fast` both offer.
pub trait Store: Clone {
    fn open(structure: u8, size: u8, tree: &mut [u8]) -> Self;
    fn call(&mut self, tree: &mut [u8], ticket: &[u8], tape: &[u16], trace: &mut [u16]) -> Outcome;
    /// Reads a closed store out: the file's length, or the number of a refusal.
    fn read_out(&self, tree: &[u8], output: &mut [u8]) -> Result<usize, u8>;
    /// The state in its plain form, every byte of every place included.
    fn to_plain(&self) -> plain::State;
    fn from_plain(state: &plain::State) -> Self;
}
