//! The programs that make the calls of an input and print lines of them. The
//! input is a structure byte, a size byte, then for each call a ticket and its
//! tape numbers, 2F + 1 or for a queue four. The walk program prints a line a
//! call, the peaks program another. `damaged_calls` prints both; each of its
//! calls has five bytes more, the damage that is done to the tree before it.

use crate::paper::*;
use crate::{fast, plain, Store};
use std::io::{self, ErrorKind, Read, Write};

#[derive(Clone, Copy, Debug, PartialEq, Eq)]
pub enum Program {
    Walk,
    Peaks,
    DamagedCalls,
}

/// Runs a program over `plain`; with the argument `fast`, over `fast`.
pub fn main(program: Program) -> io::Result<()> {
    let (input, output) = (io::stdin().lock(), io::stdout().lock());
    match std::env::args().nth(1).as_deref() {
        Some("fast") => run::<fast::State>(program, input, output),
        _ => run::<plain::State>(program, input, output),
    }
}

pub fn run<S: Store>(program: Program, input: impl Read, mut output: impl Write) -> io::Result<()> {
    let mut lines = Lines::default();
    each_event(program.damages(), input, S::call, |event| {
        output.write_all(lines.of(program, &event).as_bytes())?;
        output.flush()
    })
}

impl Program {
    /// Whether its input says what is damaged.
    pub fn damages(self) -> bool {
        self == Program::DamagedCalls
    }
}

// ---- what happens

/// What there is to tell of an input, in order. After a refused opening and a
/// short end nothing comes.
pub enum Event<'a> {
    /// With the leaves that it revealed.
    Call(Outcome, &'a [u16]),
    RefusedOpening(u8),
    Short,
}

/// Makes an input's calls by a function, and tells each event at once.
pub fn each_event<S: Store>(
    damages: bool,
    input: impl Read,
    mut make: impl FnMut(&mut S, &mut [u8], &[u8], &[u16], &mut [u16]) -> Outcome,
    mut tell: impl FnMut(Event) -> io::Result<()>,
) -> io::Result<()> {
    let mut input = Input {
        bytes: input,
        damages,
    };
    let Some([structure, size]) = input.opening()? else {
        return tell(Event::Short);
    };
    let (mut store, mut tree) = open::<S>(structure, size);
    let mark = store.to_plain().mark;
    if mark != 0 {
        return tell(Event::RefusedOpening(mark));
    }
    let numbers = tape_length(structure, size);
    loop {
        let Call {
            ticket,
            tape,
            damage,
        } = match input.call(numbers)? {
            Next::Call(call) => call,
            Next::Short => return tell(Event::Short),
            Next::End => return Ok(()),
        };
        damage.is_done_to(&mut tree);
        let mut trace = vec![0; 2 * fetch_rounds(structure, size)];
        let outcome = make(&mut store, &mut tree, &ticket, &tape, &mut trace);
        tell(Event::Call(outcome, &trace[..outcome.leaves]))?;
    }
}

/// A store and its tree; one of an unknown size has some other's tree.
pub fn open<S: Store>(structure: u8, size: u8) -> (S, Vec<u8>) {
    let mut tree = vec![0; tree_bytes(size.clamp(1, GREATEST_SIZE))];
    (S::open(structure, size, &mut tree), tree)
}

// ---- lines

/// The lines of a program, event by event.
#[derive(Default)]
pub struct Lines {
    /// The largest peak so far.
    largest: usize,
}

impl Lines {
    /// What a program prints for the next event.
    pub fn of(&mut self, program: Program, event: &Event) -> String {
        match event {
            Event::Call(outcome, leaves) => match program {
                Program::Walk => answer_line(*outcome, leaves),
                Program::Peaks => self.peak_line(*outcome),
                Program::DamagedCalls => answer_line(*outcome, leaves) + &self.peak_line(*outcome),
            },
            Event::RefusedOpening(cause) => format!("refused {cause}\n"),
            Event::Short => "short\n".to_string(),
        }
    }

    fn peak_line(&mut self, outcome: Outcome) -> String {
        let last = outcome.peak;
        self.largest = self.largest.max(last);
        format!(
            "last {last} largest {} limit {WAITING_LIMIT}\n",
            self.largest
        )
    }
}

/// Answer word, value or cause, leaves.
pub fn answer_line(outcome: Outcome, leaves: &[u16]) -> String {
    let mut line = format!("{} {}", outcome.answer.word(), outcome.answer.number());
    for leaf in leaves {
        line += &format!(" {leaf}");
    }
    line + "\n"
}

// ---- the input

/// An input, read as far as it is asked for.
pub struct Input<R> {
    pub bytes: R,
    /// Whether a call's damage follows its tape.
    pub damages: bool,
}

pub struct Call {
    pub ticket: Vec<u8>,
    pub tape: Vec<u16>,
    pub damage: Damage,
}

/// A byte of the tree grows.
#[derive(Clone, Copy, Debug, Default, PartialEq, Eq)]
pub struct Damage {
    /// The byte's number, modulo the tree's length.
    pub place: u32,
    /// 0 is no damage.
    pub amount: u8,
}

/// What comes next in an input: a whole call, or none.
pub enum Next {
    Call(Call),
    Short,
    End,
}

impl<R: Read> Input<R> {
    /// The structure and the size, unless the input ends before.
    pub fn opening(&mut self) -> io::Result<Option<[u8; 2]>> {
        let mut opening = [0; 2];
        let got = read_some(&mut self.bytes, &mut opening)?;
        Ok((got == opening.len()).then_some(opening))
    }

    /// A call with so many tape numbers.
    pub fn call(&mut self, numbers: usize) -> io::Result<Next> {
        let tape_end = TICKET_BYTES + 2 * numbers;
        let mut call = vec![0; tape_end + Damage::BYTES];
        let length = match self.damages {
            true => call.len(),
            false => tape_end,
        };
        let got = read_some(&mut self.bytes, &mut call[..length])?;
        let damage = Damage::read(&call.split_off(tape_end));
        let tape = tape_numbers(&call.split_off(TICKET_BYTES));
        Ok(match got {
            0 => Next::End,
            _ if got < length => Next::Short,
            _ => Next::Call(Call {
                ticket: call,
                tape,
                damage,
            }),
        })
    }
}

impl Damage {
    pub const BYTES: usize = 5;

    fn read(bytes: &[u8]) -> Damage {
        Damage {
            place: u32::from_le_bytes(bytes[..4].try_into().unwrap()),
            amount: bytes[4],
        }
    }

    pub fn bytes(self) -> [u8; Damage::BYTES] {
        let [a, b, c, d] = self.place.to_le_bytes();
        [a, b, c, d, self.amount]
    }

    /// Modulo 256.
    pub fn is_done_to(self, tree: &mut [u8]) {
        let place = self.place as usize % tree.len();
        tree[place] = tree[place].wrapping_add(self.amount);
    }
}

fn tape_numbers(bytes: &[u8]) -> Vec<u16> {
    bytes
        .chunks(2)
        .map(|number| u16::from_le_bytes([number[0], number[1]]))
        .collect()
}

/// Fills the buffer as far as the input goes.
fn read_some(input: &mut impl Read, buffer: &mut [u8]) -> io::Result<usize> {
    let mut got = 0;
    while got < buffer.len() {
        match input.read(&mut buffer[got..]) {
            Ok(0) => break,
            Ok(more) => got += more,
            Err(error) if error.kind() == ErrorKind::Interrupted => {}
            Err(error) => return Err(error),
        }
    }
    Ok(got)
}
