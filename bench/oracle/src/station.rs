//! The station: does the commands of a job, saves and recalls forms, prints what is owed.

use crate::fault::Fault;
use crate::label::{four_digits, Label, LINE_ROOM};
use crate::picture;
use crate::reader::{read, Command};
use crate::roll::Roll;
use crate::store::FormStore;

pub const LONGEST_JOB: usize = 60_000;
pub const ANSWER: usize = 13;
pub const WORK: usize = 1400;
const LONGEST_DRAFT: usize = 1024;
const MOST_ORDERED: u32 = 100_000_000;

enum Mode {
    Idle,
    Saving { number: u8, draft: Vec<u8> },
    Owing { size: u16, owed: u16 },
}

pub struct Station {
    label: Label,
    mode: Mode,
    /// The labels ordered since the station was made.
    ordered: u32,
    store: FormStore,
    printer: Roll,
    line: [u8; LINE_ROOM],
    /// The label that a recall works on.
    spare: Label,
}

impl Station {
    pub fn new(store: FormStore, printer: Roll) -> Station {
        Station {
            label: Label::new(),
            mode: Mode::Idle,
            ordered: 0,
            store,
            printer,
            line: [0; LINE_ROOM],
            spare: Label::new(),
        }
    }

    pub fn label(&self) -> &Label {
        &self.label
    }

    pub fn store(&self) -> &FormStore {
        &self.store
    }

    pub fn printer(&self) -> &Roll {
        &self.printer
    }

    pub fn owed(&self) -> u16 {
        match self.mode {
            Mode::Owing { owed, .. } => owed,
            _ => 0,
        }
    }

    /// Does the command at the place and answers the place behind it.
    pub fn command(
        &mut self,
        job: &[u8],
        place: usize,
        answer: &mut [u8],
        work: &mut [u8],
    ) -> Result<usize, Fault> {
        if job.len() > LONGEST_JOB || place > job.len() {
            return Err(Fault::new(1, place, place));
        }
        if answer.len() < ANSWER || work.len() < WORK {
            return Err(Fault::new(2, place, place));
        }
        if place == job.len() {
            return Err(Fault::new(3, place, place));
        }
        let (command, next) = read(job, place)?;
        let refuse = |number| Fault::new(number, place, next);
        match (&mut self.mode, command) {
            (_, Command::Status) => self.status(answer),
            (_, Command::Reset) => {
                self.label = Label::new();
                self.mode = Mode::Idle;
            }
            (Mode::Owing { .. }, _) => return Err(refuse(9)),
            (Mode::Saving { draft, .. }, Command::Label(_)) => {
                let bytes = &job[place..next];
                if draft.len() + bytes.len() > LONGEST_DRAFT {
                    return Err(refuse(12));
                }
                draft.extend_from_slice(bytes);
            }
            (Mode::Saving { number, draft }, Command::EndForm) => {
                self.store.put(*number, draft).map_err(refuse)?;
                self.mode = Mode::Idle;
            }
            (Mode::Saving { .. }, _) => return Err(refuse(10)),
            (Mode::Idle, Command::Label(command)) => self.label.apply(&command).map_err(refuse)?,
            (Mode::Idle, Command::EndForm) => return Err(refuse(11)),
            (Mode::Idle, Command::Issue(count)) => self.issue(count).map_err(refuse)?,
            (Mode::Idle, Command::BeginForm(number)) => {
                self.mode = Mode::Saving { number, draft: Vec::new() };
            }
            (Mode::Idle, Command::Recall(number)) => {
                self.recall(number, place, work).map_err(|fault| Fault { next, ..fault })?;
            }
            (Mode::Idle, Command::EmptyStore) => self.store.clear(),
        }
        Ok(next)
    }

    fn issue(&mut self, count: u16) -> Result<(), u8> {
        let ordered = self.ordered + u32::from(count);
        if ordered > MOST_ORDERED {
            return Err(21);
        }
        self.ordered = ordered;
        self.mode = Mode::Owing { size: count, owed: count };
        Ok(())
    }

    /// Copies the form into the work buffer and does all its commands or none.
    fn recall(&mut self, number: u8, place: usize, work: &mut [u8]) -> Result<(), Fault> {
        let form = self.store.get(number).ok_or(Fault { number: 18, form: number, place, next: 0 })?;
        let form_copy = &mut work[..form.len()];
        form_copy.copy_from_slice(form);
        let label = &mut self.spare;
        label.set_to(&self.label);
        let mut at = 0;
        while at < form_copy.len() {
            let inside = |fault: Fault| Fault { form: number, ..fault };
            let (command, next) = read(form_copy, at).map_err(inside)?;
            let Command::Label(command) = command else {
                return Err(inside(Fault::new(10, at, next)));
            };
            label.apply(&command).map_err(|number| inside(Fault::new(number, at, next)))?;
            at = next;
        }
        std::mem::swap(&mut self.label, &mut self.spare);
        Ok(())
    }

    /// Writes the status answer.
    fn status(&self, answer: &mut [u8]) {
        let owed = self.owed();
        let status = match (owed, self.printer.left()) {
            (0, _) => b"00",
            (_, 0) => b"13",
            _ => b"02",
        };
        answer[..ANSWER].copy_from_slice(b"\x01\x020010000\x03\x04\r\n");
        answer[2..4].copy_from_slice(status);
        answer[5..9].copy_from_slice(&four_digits(owed));
    }

    /// Prints one owed label; its line then stands in the front of the work buffer.
    pub fn print(&mut self, work: &mut [u8]) -> Result<usize, Fault> {
        if work.len() < WORK {
            return Err(Fault::new(2, 0, 0));
        }
        let Mode::Owing { size, owed } = self.mode else {
            return Err(Fault::new(22, 0, 0));
        };
        if self.printer.left() == 0 {
            return Err(Fault::new(23, 0, 0));
        }
        let length = self.label.write_line(size - owed + 1, size, &mut self.line);
        let line = &self.line[..length];
        if !self.printer.take(line) {
            return Err(Fault::new(23, 0, 0));
        }
        work[..length].copy_from_slice(line);
        self.label.turn();
        self.mode = if owed > 1 { Mode::Owing { size, owed: owed - 1 } } else { Mode::Idle };
        Ok(length)
    }

    pub fn reload(&mut self) {
        self.printer.reload();
    }

    /// Fills the front of the buffer with the picture of the label.
    pub fn draw(&self, dots: &mut [u8]) -> Result<(), Fault> {
        if dots.len() < picture::BYTES {
            return Err(Fault::new(2, 0, 0));
        }
        picture::draw(&self.label, &mut dots[..picture::BYTES]);
        Ok(())
    }
}
