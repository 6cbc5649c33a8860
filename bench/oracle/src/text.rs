//! Texts: check characters, zero suppression, and turning by a step.

/// The most bytes that a text may have.
pub const LONGEST_TEXT: usize = 40;

/// A text; the bytes behind its length are 0.
#[derive(Clone, Copy, Debug, PartialEq, Eq)]
pub struct Text {
    bytes: [u8; LONGEST_TEXT],
    len: u8,
}

impl Text {
    pub const EMPTY: Text = Text { bytes: [0; LONGEST_TEXT], len: 0 };

    /// The text that has these bytes, of which there are at most forty.
    pub fn new(from: &[u8]) -> Text {
        let mut text = Text::EMPTY;
        text.bytes[..from.len()].copy_from_slice(from);
        text.len = from.len() as u8;
        text
    }

    /// Puts more bytes behind the text, or answers false.
    pub fn join(&mut self, more: &[u8]) -> bool {
        let len = self.len();
        let Some(room) = self.bytes.get_mut(len..len + more.len()) else {
            return false;
        };
        room.copy_from_slice(more);
        self.len += more.len() as u8;
        true
    }

    pub fn len(&self) -> usize {
        usize::from(self.len)
    }

    pub fn is_empty(&self) -> bool {
        self.len == 0
    }

    pub fn as_bytes(&self) -> &[u8] {
        &self.bytes[..self.len().min(LONGEST_TEXT)]
    }

    pub fn as_mut_bytes(&mut self) -> &mut [u8] {
        let len = self.len().min(LONGEST_TEXT);
        &mut self.bytes[..len]
    }

    /// All forty bytes.
    pub fn cells(&self) -> &[u8; LONGEST_TEXT] {
        &self.bytes
    }
}

/// The check character that is appended to a text when it is finished.
#[derive(Clone, Copy, Debug, PartialEq, Eq)]
pub enum Check {
    None,
    Modulus10,
    Modulus43,
}

/// The characters of modulus 43, in the order of their values.
const CODE_39: &[u8; 43] = b"0123456789ABCDEFGHIJKLMNOPQRSTUVWXYZ-. $/+%";

/// For each byte its value in modulus 43; behind it stands 43 for those that have none.
const VALUES_43: [u8; 256] = values_43(43);
/// The same with 0 for those that have none, so that the cells behind a text add nothing.
const ADDED_43: [u8; 256] = values_43(0);

const fn values_43(none: u8) -> [u8; 256] {
    let mut values = [none; 256];
    let mut i = 0;
    while i < CODE_39.len() {
        values[CODE_39[i] as usize] = i as u8;
        i += 1;
    }
    values
}

/// The weights of modulus 10 are 3, 1, 3, .. from the right: so they are from the left, for a text of
/// an even and of an odd number of digits.
const WEIGHTS_10: [[u16; LONGEST_TEXT]; 2] = {
    let mut weights = [[1; LONGEST_TEXT]; 2];
    let mut i = 0;
    while i < LONGEST_TEXT {
        weights[(i + 1) % 2][i] = 3;
        i += 1;
    }
    weights
};

/// For each sum of weighted digits its check digit.
fn check_10(sum: u16) -> u8 {
    b'0' + ((10 - sum % 10) % 10) as u8
}

impl Check {
    /// Is every character of the text in this check's set?
    pub fn admits(self, text: &[u8]) -> bool {
        match self {
            Check::None => true,
            Check::Modulus10 => text.iter().all(u8::is_ascii_digit),
            Check::Modulus43 => text.iter().all(|&b| VALUES_43[usize::from(b)] < 43),
        }
    }

    /// The check character of a text whose characters are all in the set.
    pub fn character(self, text: &Text) -> Option<u8> {
        match self {
            Check::None => None,
            Check::Modulus10 => {
                let weights = &WEIGHTS_10[text.len() % 2];
                let sum = text.cells().iter().zip(weights).map(|(b, w)| u16::from(b & 15) * w).sum();
                Some(check_10(sum))
            }
            Check::Modulus43 => {
                let sum: u32 = text.cells().iter().map(|&b| u32::from(ADDED_43[usize::from(b)])).sum();
                Some(CODE_39[(sum % 43) as usize])
            }
        }
    }
}

/// Which bytes of a text count.
#[derive(Clone, Copy, Debug, PartialEq, Eq)]
pub enum Rule {
    /// Every digit.
    Plain,
    /// Every digit but one just behind a `>`.
    Code128,
}

/// A signed number of at most ten digits, as it is added place by place.
#[derive(Clone, Copy, Debug, PartialEq, Eq)]
pub struct Step {
    /// The digits from the lowest on.
    digits: [u8; 10],
    /// How many of them count: up to the highest that is not 0.
    used: u8,
    down: bool,
}

impl Step {
    pub const ZERO: Step = Step { digits: [0; 10], used: 0, down: false };

    pub fn is_zero(&self) -> bool {
        self.used == 0
    }

    /// The step with this sign and these ten digits, from the highest on.
    pub fn new(down: bool, told: &[u8; 10]) -> Step {
        let mut step = Step { digits: [0; 10], used: 0, down };
        for (i, digit) in told.iter().rev().enumerate() {
            step.digits[i] = digit & 15;
            if *digit != b'0' {
                step.used = i as u8 + 1;
            }
        }
        step
    }
}

impl Rule {
    /// Adds the step to the number that the counting digits spell, going round at both ends.
    pub fn turn(self, text: &mut [u8], step: &Step) {
        let digits = &step.digits[..usize::from(step.used).min(10)];
        match (self, step.down) {
            (Rule::Plain, false) => add::<false, false>(text, digits),
            (Rule::Plain, true) => add::<false, true>(text, digits),
            (Rule::Code128, false) => add::<true, false>(text, digits),
            (Rule::Code128, true) => add::<true, true>(text, digits),
        }
    }
}

/// Adds or takes away digits, the lowest first, from the last counting digit of a text on to the left.
fn add<const MARKS: bool, const DOWN: bool>(text: &mut [u8], digits: &[u8]) {
    let mut digits = digits.iter();
    let mut carry = 0;
    let mut rest = text;
    while let Some((last, front)) = rest.split_last_mut() {
        if last.is_ascii_digit() && !(MARKS && front.last() == Some(&b'>')) {
            let by = match digits.next() {
                Some(digit) => digit + carry,
                None if carry == 0 => return,
                None => carry,
            };
            let (digit, new) = (*last, if DOWN { last.wrapping_sub(by) } else { *last + by });
            carry = u8::from(if DOWN { digit < b'0' + by } else { new > b'9' });
            let round = 10 * carry;
            *last = if DOWN { new.wrapping_add(round) } else { new - round };
        }
        rest = front;
    }
}

/// The most bytes of a finished text.
pub const LONGEST_FINISHED: usize = LONGEST_TEXT + 1;

/// Writes the text as it is printed into the front of `out`, which has room for the longest: with
/// its check character, then with its zeros suppressed. Answers its length.
pub fn finish(text: &Text, check: Check, keep: Option<u8>, out: &mut [u8; LONGEST_FINISHED]) -> usize {
    out[..LONGEST_TEXT].copy_from_slice(text.cells());
    let mut len = text.len();
    if let Some(character) = check.character(text) {
        out[len] = character;
        len += 1;
    }
    if let Some(keep) = keep {
        let keep = usize::from(keep);
        if keep <= len {
            for byte in &mut out[..len - keep] {
                if *byte != b'0' {
                    break;
                }
                *byte = b' ';
            }
        }
    }
    len
}
