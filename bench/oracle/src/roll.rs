//! The printer: a roll of tags.

use crate::fault::Fault;

pub const LONGEST_LINE: usize = 1354;
const LARGEST_ROLL: u32 = 1_000_000;
const LAST_TAG: u64 = 1_000_000_000;

pub struct Roll {
    size: u32,
    left: u32,
    taken: u64,
    latest: Vec<u8>,
}

impl Roll {
    /// A full roll of so many tags.
    pub fn new(size: u32) -> Result<Roll, Fault> {
        if !(1..=LARGEST_ROLL).contains(&size) {
            return Err(Fault::new(2, 0, 0));
        }
        Ok(Roll { size, left: size, taken: 0, latest: Vec::new() })
    }

    pub fn left(&self) -> u32 {
        self.left
    }

    pub fn taken(&self) -> u64 {
        self.taken
    }

    pub fn latest(&self) -> &[u8] {
        &self.latest
    }

    /// Takes a line, or answers false and changes nothing.
    pub fn take(&mut self, line: &[u8]) -> bool {
        if self.left == 0 || line.is_empty() || line.len() > LONGEST_LINE {
            return false;
        }
        self.left -= 1;
        self.taken += 1;
        self.latest.clear();
        self.latest.extend_from_slice(line);
        true
    }

    pub fn reload(&mut self) {
        self.left = if self.taken < LAST_TAG { self.size } else { 0 };
    }
}
