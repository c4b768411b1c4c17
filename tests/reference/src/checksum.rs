//! The checksum of a run of calls that the benchmark compares, and of the numbers
//! of paths: bench/README.md at the repository's root defines it.

use crate::paper::{Answer, Outcome};

pub struct Checksum(pub u64);

impl Checksum {
    pub const START: Checksum = Checksum(1);

    /// Joins a number, by a step of xorshift.
    #[inline]
    pub fn join(&mut self, number: u64) {
        let mut sum = self.0 ^ number;
        sum ^= sum << 13;
        sum ^= sum >> 7;
        sum ^= sum << 17;
        self.0 = sum;
    }

    /// Joins the numbers of a call's line: its word's, its value or cause, and
    /// its leaves; then its peak.
    #[inline]
    pub fn join_call(&mut self, outcome: Outcome, trace: &[u16]) {
        self.join(word_number(outcome.answer));
        self.join(outcome.answer.number());
        for &leaf in &trace[..outcome.leaves] {
            self.join(u64::from(leaf));
        }
        self.join(outcome.peak as u64);
    }
}

fn word_number(answer: Answer) -> u64 {
    match answer {
        Answer::Refused(_) => 0,
        Answer::Found(_) => 1,
        Answer::Absent => 2,
        Answer::Replaced(_) => 3,
        Answer::New => 4,
        Answer::Removed(_) => 5,
        Answer::Pushed => 6,
        Answer::Popped(_) => 7,
        Answer::Empty => 8,
        Answer::Added => 9,
        Answer::Taken(_) => 10,
        Answer::Queued => 11,
        Answer::Dequeued(_) => 12,
    }
}
