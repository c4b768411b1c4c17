//! The readout program: reads what the walk program reads, and writes the file
//! of the store as soon as a call has closed it.

use crate::paper::*;
use crate::walk::{open, Call, Input, Next};
use crate::Store;
use std::io::{self, Read, Write};

const SHORT: &str = "readout: the input is short";
const NO_FILE: &str =
    "readout: no file, 14: the store was not closed by 8 (damage) or 9 (overflow)";
/// No file is longer: 2 bytes, and 16 for each slot and waiting place.
const LONGEST: usize = 2 + 16 * (PLACES + BUCKET_SLOTS * ((2 << GREATEST_SIZE) as usize - 1));

/// Writes the file to the output, or to the errors why there is none.
pub fn run<S: Store>(
    input: impl Read,
    mut output: impl Write,
    mut errors: impl Write,
) -> io::Result<()> {
    let input = Input {
        bytes: input,
        damages: false,
    };
    let (file, short) = closing_file::<S>(input)?;
    if let Some(file) = file {
        output.write_all(&file)?;
        return output.flush();
    }
    if short {
        writeln!(errors, "{SHORT}")?;
    }
    writeln!(errors, "{NO_FILE}")
}

/// The file, and whether the input broke off.
fn closing_file<S: Store>(mut input: Input<impl Read>) -> io::Result<(Option<Vec<u8>>, bool)> {
    let Some([structure, size]) = input.opening()? else {
        return Ok((None, true));
    };
    let (mut store, mut tree) = open::<S>(structure, size);
    if store.to_plain().mark != 0 {
        return Ok((None, false));
    }
    let numbers = tape_length(structure, size);
    loop {
        let Call { ticket, tape, .. } = match input.call(numbers)? {
            Next::Call(call) => call,
            Next::Short => return Ok((None, true)),
            Next::End => return Ok((None, false)),
        };
        let mut trace = vec![0; 2 * fetch_rounds(structure, size)];
        let outcome = store.call(&mut tree, &ticket, &tape, &mut trace);
        if let Answer::Refused(DAMAGE | OVERFLOW) = outcome.answer {
            return Ok((Some(file(&store, &tree)), false));
        }
    }
}

fn file(store: &impl Store, tree: &[u8]) -> Vec<u8> {
    let mut output = vec![0; LONGEST];
    let length = store.read_out(tree, &mut output);
    output.truncate(length.expect("a closed store and enough room"));
    output
}
