//! A store in bytes under calls: each goes on with what the last one left.

use super::record::{Buffers, Opening, ReadOut, Record};
use super::{at, garbage, get};
use crate::fast;
use crate::fields;
use crate::host::{number_bytes, STATE_BYTES};
use crate::paper::*;
use crate::random::Random;

pub struct Chain {
    pub random: Random,
    pub structure: u8,
    pub size: u8,
    pub state: Vec<u8>,
    pub tree: Vec<u8>,
    /// Those that a tape's numbers are picked from; any, if there are none.
    pub leaves: Vec<u16>,
    /// What makes a key of a small number.
    pub scatter: u32,
    /// How many of ten calls add an entry.
    pub growth: u64,
    pub records: Vec<Record>,
}

impl Chain {
    /// A fresh store; its opening is no record.
    pub fn new(mut random: Random, structure: u8, size: u8) -> Chain {
        let mut chain = Chain {
            state: garbage(&mut random, STATE_BYTES),
            tree: garbage(&mut random, tree_bytes(size)),
            leaves: vec![],
            scatter: random.pick(&[1, 1, 0x9e37_79b1]),
            growth: 4 + random.below(6),
            structure,
            size,
            random,
            records: vec![],
        };
        chain.reopen();
        chain
    }

    /// Opens it, with no record.
    pub fn reopen(&mut self) {
        self.open();
        self.records.pop();
    }

    /// Opens the store, whatever it is.
    pub fn open(&mut self) {
        let mut opening = Opening {
            structure: u64::from(self.structure),
            size: u64::from(self.size),
            state: self.state.clone(),
            tree: self.tree.clone(),
        };
        self.records.push(Record::Open(opening.clone()));
        assert_eq!(opening.make::<fast::State>(), 0);
        (self.state, self.tree) = (opening.state, opening.tree);
    }

    pub fn is_closed(&self) -> bool {
        self.state[at::MARK] != 0
    }

    pub fn waiting(&self) -> u64 {
        get(&self.state, at::WAITING, 2)
    }

    // ---- calls

    /// Some calls that are no records.
    pub fn grow(&mut self, calls: u64) {
        for _ in 0..calls {
            let buffers = self.buffers();
            self.go_on(buffers);
        }
    }

    /// The next of the calls that add an entry and are no records.
    pub fn add(&mut self, small: u64) {
        let kind = [PUT, PUSH, ADD, IN][usize::from(self.structure) - 1];
        let key = (small as u32).wrapping_mul(self.scatter);
        let ticket = fields::clean(kind, key, self.value());
        let buffers = self.buffers_for(ticket);
        self.go_on(buffers);
    }

    fn go_on(&mut self, mut buffers: Buffers) {
        buffers.make::<fast::State>();
        (self.state, self.tree) = (buffers.state, buffers.tree);
    }

    /// A number of calls that is mostly small.
    pub fn some_calls(&mut self) -> u64 {
        let most = u64::from(capacity(self.size)) * 5 / 4 + 2;
        let (few, many) = (self.random.below(9), self.random.below(most));
        self.random.pick(&[0, 1, few, few, many])
    }

    /// Some calls; one with a stray field may come before each.
    pub fn calls(&mut self, calls: u64) {
        for _ in 0..calls {
            if self.random.one_in(fields::STRAY) {
                let stray = fields::stray_of(&mut self.random, self.structure);
                let buffers = self.buffers_for(stray);
                self.call(buffers);
            }
            let buffers = self.buffers();
            self.call(buffers);
        }
    }

    /// A call, after which the store is what it leaves.
    pub fn call(&mut self, buffers: Buffers) {
        self.records.push(Record::Call(buffers.clone()));
        self.go_on(buffers);
    }

    /// The buffers of a call that the store has no cause to refuse before it.
    pub fn buffers(&mut self) -> Buffers {
        let ticket = self.ticket();
        self.buffers_for(ticket)
    }

    pub fn buffers_for(&mut self, ticket: Ticket) -> Buffers {
        let more = self.more_numbers();
        let numbers = tape_length(self.structure, self.size) + more;
        let tape: Vec<u16> = (0..numbers).map(|_| self.tape_number()).collect();
        let places = 2 * fetch_rounds(self.structure, self.size) + self.more_numbers();
        Buffers {
            state: self.state.clone(),
            tree: self.tree.clone(),
            ticket: ticket.bytes().to_vec(),
            tape: number_bytes(&tape),
            trace: garbage(&mut self.random, 2 * places),
            result: garbage(&mut self.random, 12),
        }
    }

    /// How much longer a tape or trace is than it must be.
    fn more_numbers(&mut self) -> usize {
        let any = self.random.index(40);
        self.random.pick(&[0, 0, 0, 0, 1, any])
    }

    fn tape_number(&mut self) -> u16 {
        match self.leaves.is_empty() {
            true => self.random.next() as u16,
            false => self.random.pick(&self.leaves),
        }
    }

    fn ticket(&mut self) -> Ticket {
        let adds = self.random.below(10) < self.growth;
        let kind = fields::kind_of(&mut self.random, self.structure, adds, &[GET, GET, REMOVE]);
        let small = self
            .random
            .below(u64::from(capacity(self.size)) * 5 / 4 + 2);
        fields::clean(kind, self.key(small), self.value())
    }

    fn key(&mut self, small: u64) -> u32 {
        match self.random.below(40) {
            0 => u32::MAX,
            _ => (small as u32).wrapping_mul(self.scatter),
        }
    }

    fn value(&mut self) -> u64 {
        let (any, small) = (self.random.next(), self.random.below(9));
        self.random.pick(&[any, any, small, 0, u64::MAX])
    }

    // ---- read-outs

    /// A read-out of the store as it is, into a buffer of any length.
    pub fn read_out(&mut self) {
        let (state, tree) = (self.state.clone(), self.tree.clone());
        self.read_out_of(state, tree);
    }

    /// A call on such a state and tree.
    pub fn call_of(&mut self, state: Vec<u8>, tree: Vec<u8>) {
        let buffers = self.buffers();
        self.records.push(Record::Call(Buffers {
            state,
            tree,
            ..buffers
        }));
    }

    /// Mostly the buffer is as long as the file, or a little more or less.
    pub fn read_out_of(&mut self, state: Vec<u8>, tree: Vec<u8>) {
        let random = &mut self.random;
        let mut read_out = ReadOut {
            out: vec![0; super::MOST_FILE],
            state,
            tree,
        };
        let (number, length) = read_out.make::<fast::State>();
        let length = length as usize;
        let room = match number {
            0 => {
                let (less, more) = (random.index(length), length + 1 + random.index(300));
                random.pick(&[length, length, length, more, more, length - 1, less, 0, 1])
            }
            _ => random.pick(&[0, 1, 2, 500, 3000]),
        };
        read_out.out = garbage(random, room);
        self.records.push(Record::ReadOut(read_out));
    }
}
