//! The readout program over `plain`, with the standard output for the file;
//! with the argument `fast`, over `fast`.

use reference::{fast, plain, readout};
use std::io;

fn main() -> io::Result<()> {
    let (input, output) = (io::stdin().lock(), io::stdout().lock());
    let errors = io::stderr().lock();
    match std::env::args().nth(1).as_deref() {
        Some("fast") => readout::run::<fast::State>(input, output, errors),
        _ => readout::run::<plain::State>(input, output, errors),
    }
}
