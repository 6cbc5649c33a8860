//! Faults: what a refused call answers.

use std::fmt;

/// A refusal: its number, the form it happened in (0: none), its place and where to go on.
#[derive(Clone, Copy, Debug, PartialEq, Eq)]
pub struct Fault {
    pub number: u8,
    pub form: u8,
    pub place: usize,
    pub next: usize,
}

impl Fault {
    /// A fault outside of any form.
    pub fn new(number: u8, place: usize, next: usize) -> Fault {
        Fault { number, form: 0, place, next }
    }

    /// Which layer refused: job, station, label, form store or printer.
    pub fn layer(&self) -> char {
        match self.number {
            1..=8 => 'J',
            9..=12 | 21 | 22 => 'S',
            13..=17 => 'L',
            18..=20 => 'F',
            _ => 'P',
        }
    }
}

impl fmt::Display for Fault {
    fn fmt(&self, f: &mut fmt::Formatter) -> fmt::Result {
        write!(f, "R,{:02},{},{:02},{:06}", self.number, self.layer(), self.form, self.place)
    }
}
