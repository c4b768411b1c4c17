//! One call of a C host with the buffers that it lends, as the driver reads and
//! tells it (`tests/README.md`).

use crate::host::{self, Lent};
use crate::paper::TICKET_BYTES;
use crate::Store;

#[derive(Clone, Debug, PartialEq, Eq)]
pub enum Record {
    Open(Opening),
    Call(Buffers),
    ReadOut(ReadOut),
    Lengths { structure: u64, size: u64 },
}

#[derive(Clone, Debug, PartialEq, Eq)]
pub struct Opening {
    pub structure: u64,
    pub size: u64,
    pub state: Vec<u8>,
    pub tree: Vec<u8>,
}

#[derive(Clone, Debug, PartialEq, Eq)]
pub struct Buffers {
    pub state: Vec<u8>,
    pub tree: Vec<u8>,
    pub ticket: Vec<u8>,
    pub tape: Vec<u8>,
    pub trace: Vec<u8>,
    pub result: Vec<u8>,
}

#[derive(Clone, Debug, PartialEq, Eq)]
pub struct ReadOut {
    pub state: Vec<u8>,
    pub tree: Vec<u8>,
    pub out: Vec<u8>,
}

/// What is returned: a number, with a file's length from a read-out; or the
/// lengths of state, tree, ticket, tape, trace, result and output buffer.
#[derive(Clone, Copy, Debug, PartialEq, Eq)]
pub enum Told {
    Number(u8),
    File(u8, u64),
    Lengths([u64; 7]),
}

impl Opening {
    pub fn make<S: Store>(&mut self) -> u8 {
        host::open::<S>(self.structure, self.size, &mut self.state, &mut self.tree)
    }
}

impl Buffers {
    pub fn make<S: Store>(&mut self) -> u8 {
        host::call::<S>(&mut Lent {
            state: &mut self.state,
            tree: &mut self.tree,
            ticket: &self.ticket,
            tape: &self.tape,
            trace: &mut self.trace,
            result: &mut self.result,
        })
    }
}

impl ReadOut {
    pub fn make<S: Store>(&mut self) -> (u8, u64) {
        host::read_out::<S>(&self.state, &self.tree, &mut self.out)
    }
}

pub fn lengths(structure: u64, size: u64) -> [u64; 7] {
    [
        host::STATE_BYTES as u64,
        host::tree_to_lend(size),
        TICKET_BYTES as u64,
        host::tape_to_lend(structure, size),
        host::trace_to_lend(structure, size),
        host::RESULT_BYTES as u64,
        host::out_to_lend(size),
    ]
}

impl Record {
    /// Makes the call; the buffers are then as it leaves them.
    pub fn make<S: Store>(&mut self) -> Told {
        match self {
            Record::Open(opening) => Told::Number(opening.make::<S>()),
            Record::Call(buffers) => Told::Number(buffers.make::<S>()),
            Record::ReadOut(read_out) => {
                let (number, length) = read_out.make::<S>();
                Told::File(number, length)
            }
            Record::Lengths { structure, size } => Told::Lengths(lengths(*structure, *size)),
        }
    }

    /// Its buffers, in the order in which the function takes them.
    fn buffers(&self) -> Vec<&[u8]> {
        match self {
            Record::Open(Opening { state, tree, .. }) => vec![state, tree],
            Record::Call(lent) => vec![
                &lent.state,
                &lent.tree,
                &lent.ticket,
                &lent.tape,
                &lent.trace,
                &lent.result,
            ],
            Record::ReadOut(ReadOut { state, tree, out }) => vec![state, tree, out],
            Record::Lengths { .. } => vec![],
        }
    }

    /// The record for the driver.
    pub fn bytes(&self) -> Vec<u8> {
        let (entry, numbers) = match self {
            Record::Open(Opening {
                structure, size, ..
            }) => (1, vec![structure, size]),
            Record::Call(_) => (2, vec![]),
            Record::ReadOut(_) => (3, vec![]),
            Record::Lengths { structure, size } => (4, vec![structure, size]),
        };
        let mut bytes = vec![entry];
        bytes.extend(numbers.iter().flat_map(|number| number.to_le_bytes()));
        for buffer in self.buffers() {
            bytes.extend((buffer.len() as u32).to_le_bytes());
            bytes.extend(buffer);
        }
        bytes
    }

    /// What the driver prints of a call that was made.
    pub fn told_bytes(&self, told: Told) -> Vec<u8> {
        let left = self.buffers().concat();
        match told {
            Told::Number(number) => [&u32::from(number).to_le_bytes(), &left[..]].concat(),
            Told::File(number, length) => [
                &u32::from(number).to_le_bytes(),
                &left[..],
                &length.to_le_bytes(),
            ]
            .concat(),
            Told::Lengths(lengths) => lengths
                .iter()
                .flat_map(|length| length.to_le_bytes())
                .collect(),
        }
    }
}
