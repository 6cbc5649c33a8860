//! The reader: finds the command at a place of a job and takes its parts.

use crate::fault::Fault;
use crate::label::{Drawing, Format, Head, Links, Shape, Sizes};
use crate::text::{Check, Rule, Step, LONGEST_TEXT};
use std::ops::RangeInclusive;

pub const ESC: u8 = 0x1B;
pub const LF: u8 = 0x0A;
pub const NUL: u8 = 0x00;

/// The most bytes of a command, from its ESC to its NUL.
const LONGEST_COMMAND: usize = 255;
const MOST_LINKS: usize = 4;
pub const MOST_STRINGS: usize = 8;

/// The number of text fields and of bar fields.
pub const TEXT_FIELDS: usize = 16;
pub const BAR_FIELDS: usize = 8;

/// A field of the label, counted from 0: the text fields, then the bars.
pub type FieldIndex = usize;

/// A command that acts on the label alone, so that it may stand in a form.
#[derive(Debug)]
pub enum LabelCommand<'a> {
    Size(Sizes),
    Clear,
    Format { field: FieldIndex, format: Format, text: &'a [u8] },
    Text { field: FieldIndex, text: &'a [u8] },
    /// One to eight link strings with the commas between them.
    Strings(&'a [u8]),
    Draw(Drawing),
}

#[derive(Debug)]
pub enum Command<'a> {
    Label(LabelCommand<'a>),
    Issue(u16),
    BeginForm(u8),
    EndForm,
    Recall(u8),
    EmptyStore,
    Status,
    Reset,
}

/// Reads the command at `place`, which is before the job's end, and tells the place behind it.
///
/// The parts are taken first: they hold no LF, so that where all fit, the first LF stands behind
/// them. Only of a command that is wrong, or has another byte behind that LF, is the end looked for.
pub fn read(job: &[u8], place: usize) -> Result<(Command<'_>, usize), Fault> {
    if job[place] != ESC {
        return Err(Fault::new(4, place, following_esc(job, place)));
    }
    let mut parts = Parts { job, at: place + 1 };
    match parts.body() {
        Ok(command) if job.get(parts.at + 1) == Some(&NUL) && parts.at + 2 - place <= LONGEST_COMMAND => {
            Ok((command, parts.at + 2))
        }
        Ok(_) => Err(no_end(job, place)),
        Err(wrong) => Err(refusal(job, place, wrong)),
    }
}

#[cold]
fn no_end(job: &[u8], place: usize) -> Fault {
    Fault::new(5, place, following_esc(job, place))
}

#[cold]
fn refusal(job: &[u8], place: usize, wrong: Wrong) -> Fault {
    let Some(end) = command_end(job, place) else {
        return no_end(job, place);
    };
    match wrong {
        Wrong::Letters => Fault::new(6, place, end + 2),
        Wrong::Byte(at) => Fault::new(7, at, end + 2),
        Wrong::Value(at) => Fault::new(8, at, end + 2),
    }
}

/// The first ESC behind the place, or the job's end.
fn following_esc(job: &[u8], place: usize) -> usize {
    let behind = place + 1;
    job[behind..].iter().position(|&b| b == ESC).map_or(job.len(), |i| behind + i)
}

/// The place of the first LF, if a NUL follows it and both are within the longest command.
fn command_end(job: &[u8], place: usize) -> Option<usize> {
    let last = job.len().min(place + LONGEST_COMMAND);
    let command = &job[place..last];
    let lf = command.iter().position(|&b| b == LF)?;
    if command.get(lf + 1) == Some(&NUL) {
        Some(place + lf)
    } else {
        None
    }
}

/// Why a body is refused.
enum Wrong {
    Letters,
    /// The first unfitting byte.
    Byte(usize),
    /// The first byte of a part whose value is not admitted.
    Value(usize),
}

type Read<T> = Result<T, Wrong>;

/// Takes the parts of a body one after another, up to the LF.
struct Parts<'a> {
    job: &'a [u8],
    at: usize,
}

/// May this byte stand in a text?
const IN_TEXT: [bool; 256] = {
    let mut is = [false; 256];
    let mut b = b' ' as usize;
    while b <= b'~' as usize {
        is[b] = b != b',' as usize;
        b += 1;
    }
    is
};

impl<'a> Parts<'a> {
    #[inline(always)]
    fn body(&mut self) -> Read<Command<'a>> {
        let letters = &self.job[self.at..];
        let two = |parts: &mut Parts<'a>| parts.at += 2;
        let command = match letters {
            [b'R', b'C', ..] => {
                two(self);
                Command::Label(self.text_data()?)
            }
            [b'R', b'B', ..] => {
                two(self);
                Command::Label(self.bar_data()?)
            }
            [b'P', b'C', ..] => {
                two(self);
                Command::Label(self.text_field()?)
            }
            [b'X', b'B', ..] => {
                two(self);
                Command::Label(self.bar_field()?)
            }
            [b'D', ..] => {
                self.at += 1;
                Command::Label(self.size()?)
            }
            [b'C', ..] => {
                self.at += 1;
                Command::Label(LabelCommand::Clear)
            }
            [b'L', b'C', ..] => {
                two(self);
                Command::Label(self.line()?)
            }
            [b'X', b'R', ..] => {
                two(self);
                Command::Label(self.area()?)
            }
            [b'X', b'S', ..] => {
                two(self);
                self.issue()?
            }
            [b'X', b'Q', ..] => {
                two(self);
                self.recall()?
            }
            [b'X', b'O', ..] => {
                two(self);
                self.begin_form()?
            }
            [b'X', b'P', ..] => {
                two(self);
                Command::EndForm
            }
            [b'J', b'1', ..] => {
                two(self);
                self.empty_store()?
            }
            [b'W', b'S', ..] => {
                two(self);
                Command::Status
            }
            [b'W', b'R', ..] => {
                two(self);
                Command::Reset
            }
            _ => return Err(Wrong::Letters),
        };
        self.end()?;
        Ok(command)
    }

    #[inline(always)]
    fn peek(&self) -> Option<u8> {
        self.job.get(self.at).copied()
    }

    /// Takes the next byte if it is of the kind that `fits`.
    #[inline(always)]
    fn byte(&mut self, fits: impl Fn(u8) -> bool) -> Read<u8> {
        match self.peek() {
            Some(byte) if fits(byte) => {
                self.at += 1;
                Ok(byte)
            }
            _ => Err(Wrong::Byte(self.at)),
        }
    }

    #[inline(always)]
    fn fixed(&mut self, byte: u8) -> Read<()> {
        self.byte(|b| b == byte).map(|_| ())
    }

    #[inline(always)]
    fn comma(&mut self) -> Read<()> {
        self.fixed(b',')
    }

    #[inline(always)]
    fn capital(&mut self) -> Read<u8> {
        self.byte(|b| b.is_ascii_uppercase())
    }

    #[inline(always)]
    fn end(&self) -> Read<()> {
        if self.peek() == Some(LF) {
            Ok(())
        } else {
            Err(Wrong::Byte(self.at))
        }
    }

    /// So many digits.
    #[inline(always)]
    fn digits<const N: usize>(&mut self) -> Read<&'a [u8; N]> {
        let behind = &self.job[self.at..];
        match behind.first_chunk::<N>() {
            Some(digits) if digits.iter().all(u8::is_ascii_digit) => {
                self.at += N;
                Ok(digits)
            }
            _ => Err(self.wrong_digit(behind)),
        }
    }

    #[cold]
    fn wrong_digit(&self, behind: &[u8]) -> Wrong {
        Wrong::Byte(self.at + behind.iter().take_while(|b| b.is_ascii_digit()).count())
    }

    /// A part of so many digits whose value is admitted.
    #[inline(always)]
    fn number_if<const N: usize>(&mut self, admitted: impl Fn(u32) -> bool) -> Read<u32> {
        let start = self.at;
        let mut value = 0;
        for digit in self.digits::<N>()? {
            value = 10 * value + u32::from(digit & 15);
        }
        if admitted(value) {
            Ok(value)
        } else {
            Err(Wrong::Value(start))
        }
    }

    #[inline(always)]
    fn number<const N: usize>(&mut self, range: RangeInclusive<u32>) -> Read<u32> {
        self.number_if::<N>(|value| range.contains(&value))
    }

    #[inline(always)]
    fn x(&mut self) -> Read<u16> {
        Ok(self.number::<4>(0..=539)? as u16)
    }

    #[inline(always)]
    fn y(&mut self) -> Read<u16> {
        Ok(self.number::<4>(0..=499)? as u16)
    }

    /// How many bytes from here on may stand in a text.
    #[inline(always)]
    fn skip_text(&mut self) -> &'a [u8] {
        let behind = &self.job[self.at..];
        let count = behind.iter().position(|&b| !IN_TEXT[usize::from(b)]).unwrap_or(behind.len());
        self.at += count;
        &behind[..count]
    }

    /// A text up to a comma, or to the body's end.
    #[inline(always)]
    fn string(&mut self) -> Read<()> {
        let start = self.at;
        let text = self.skip_text();
        if !matches!(self.peek(), Some(LF | b',')) {
            return Err(Wrong::Byte(self.at));
        }
        if text.len() > LONGEST_TEXT {
            return Err(Wrong::Value(start));
        }
        Ok(())
    }

    /// A text up to the body's end; a comma in it is a wrong byte, however long the text is.
    #[inline(always)]
    fn text(&mut self) -> Read<&'a [u8]> {
        let start = self.at;
        let text = self.skip_text();
        self.end()?;
        if text.len() > LONGEST_TEXT {
            return Err(Wrong::Value(start));
        }
        Ok(text)
    }

    fn size(&mut self) -> Read<LabelCommand<'a>> {
        let pitch = self.number::<4>(0..=1500)?;
        self.comma()?;
        let width = self.number::<4>(100..=540)?;
        self.comma()?;
        let length = self.number_if::<4>(|length| (80..=500).contains(&length) && length <= pitch)?;
        Ok(LabelCommand::Size(Sizes { pitch: pitch as u16, width: width as u16, length: length as u16 }))
    }

    fn text_field(&mut self) -> Read<LabelCommand<'a>> {
        let start = self.at;
        let field = self.number::<3>(1..=TEXT_FIELDS as u32)? as usize - 1;
        self.fixed(b';')?;
        self.x()?;
        self.comma()?;
        self.y()?;
        let head = head(b'T', &self.job[start + 1..]);
        self.comma()?;
        self.number::<1>(1..=9)?;
        self.comma()?;
        self.number::<1>(1..=9)?;
        self.comma()?;
        self.capital()?;
        self.comma()?;
        self.number_if::<2>(|turn| matches!(turn, 0 | 11 | 22 | 33))?;
        self.comma()?;
        self.capital()?;
        let format =
            Format { head, check: Check::None, step: Step::ZERO, keep: None, links: Links::NONE, rule: Rule::Plain };
        self.options(field, format, true)
    }

    fn bar_field(&mut self) -> Read<LabelCommand<'a>> {
        let start = self.at;
        let field = TEXT_FIELDS + self.number::<2>(1..=BAR_FIELDS as u32)? as usize - 1;
        self.fixed(b';')?;
        self.x()?;
        self.comma()?;
        self.y()?;
        let head = head(b'B', &self.job[start..]);
        self.comma()?;
        let kind = self.number_if::<1>(|kind| kind == 3 || kind == 9)?;
        self.comma()?;
        let check = self.number_if::<1>(|check| check == 1 || (check == 3 && kind == 3))?;
        for _ in 0..5 {
            self.comma()?;
            self.number::<2>(0..=99)?;
        }
        self.comma()?;
        self.number::<1>(0..=3)?;
        self.comma()?;
        self.number::<4>(0..=9999)?;
        let check = if check == 3 { Check::Modulus43 } else { Check::None };
        let rule = if kind == 9 { Rule::Code128 } else { Rule::Plain };
        let format = Format { head, check, step: Step::ZERO, keep: None, links: Links::NONE, rule };
        self.options(field, format, false)
    }

    /// The options of a format: check (text fields only), step, zero suppression, text or links.
    #[inline(always)]
    fn options(&mut self, field: FieldIndex, mut format: Format, checks: bool) -> Read<LabelCommand<'a>> {
        // How far the options have come: 0 check, 1 step, 2 zero suppression, 3 none.
        let mut stage = if checks { 0 } else { 1 };
        while stage < 3 && self.peek() == Some(b',') {
            self.at += 1;
            match self.peek() {
                Some(b'M') if stage == 0 => {
                    self.at += 1;
                    let modulus = self.number::<1>(0..=1)?;
                    format.check = if modulus == 0 { Check::Modulus10 } else { Check::Modulus43 };
                    stage = 1;
                }
                Some(sign @ (b'+' | b'-')) if stage <= 1 => {
                    self.at += 1;
                    format.step = Step::new(sign == b'-', self.digits::<10>()?);
                    stage = 2;
                }
                Some(b'Z') => {
                    self.at += 1;
                    format.keep = Some(self.number::<2>(0..=41)? as u8);
                    stage = 3;
                }
                _ => return Err(Wrong::Byte(self.at)),
            }
        }
        let mut text: &[u8] = b"";
        match self.peek() {
            Some(b'=') => {
                self.at += 1;
                text = self.text()?;
            }
            Some(b';') => {
                self.at += 1;
                format.links = self.links()?;
            }
            _ => self.end()?,
        }
        Ok(LabelCommand::Format { field, format, text })
    }

    /// One to four link numbers.
    fn links(&mut self) -> Read<Links> {
        let mut links = Links::NONE;
        links.push(self.number::<2>(1..=MOST_STRINGS as u32)? as u8);
        while links.as_slice().len() < MOST_LINKS && self.peek() == Some(b',') {
            self.comma()?;
            links.push(self.number::<2>(1..=MOST_STRINGS as u32)? as u8);
        }
        Ok(links)
    }

    /// A text field's text, or the strings for the linked fields.
    #[inline(always)]
    fn text_data(&mut self) -> Read<LabelCommand<'a>> {
        if self.peek() != Some(b';') {
            let field = self.number::<3>(1..=TEXT_FIELDS as u32)? as usize - 1;
            self.fixed(b';')?;
            return Ok(LabelCommand::Text { field, text: self.text()? });
        }
        self.at += 1;
        let start = self.at;
        self.string()?;
        let mut count = 1;
        while count < MOST_STRINGS && self.peek() == Some(b',') {
            self.comma()?;
            self.string()?;
            count += 1;
        }
        Ok(LabelCommand::Strings(&self.job[start..self.at]))
    }

    #[inline(always)]
    fn bar_data(&mut self) -> Read<LabelCommand<'a>> {
        let field = TEXT_FIELDS + self.number::<2>(1..=BAR_FIELDS as u32)? as usize - 1;
        self.fixed(b';')?;
        Ok(LabelCommand::Text { field, text: self.text()? })
    }

    /// The two corners of a drawing, each an X and a Y, and the place of the last part.
    fn corners(&mut self) -> Read<([(u16, u16); 2], usize)> {
        self.fixed(b';')?;
        let x0 = self.x()?;
        self.comma()?;
        let y0 = self.y()?;
        self.comma()?;
        let x1 = self.x()?;
        self.comma()?;
        let last = self.at;
        let y1 = self.y()?;
        self.comma()?;
        Ok(([(x0, y0), (x1, y1)], last))
    }

    fn line(&mut self) -> Read<LabelCommand<'a>> {
        let (corners, last) = self.corners()?;
        let slanted = corners[0].0 != corners[1].0 && corners[0].1 != corners[1].1;
        // A slanted line is wrong at its last Y, which stands before the parts still to be read.
        if slanted && self.peek() == Some(b'0') {
            return Err(Wrong::Value(last));
        }
        let rectangle = self.number::<1>(0..=1)? == 1;
        self.comma()?;
        let thickness = self.number::<1>(1..=9)? as usize;
        let shape = if rectangle { Shape::Rectangle(thickness) } else { Shape::Line(thickness) };
        Ok(LabelCommand::Draw(Drawing { corners, shape }))
    }

    fn area(&mut self) -> Read<LabelCommand<'a>> {
        let (corners, _) = self.corners()?;
        let start = self.at;
        let shape = match self.capital()? {
            b'A' => Shape::Clear,
            b'B' => Shape::Invert,
            _ => return Err(Wrong::Value(start)),
        };
        Ok(LabelCommand::Draw(Drawing { corners, shape }))
    }

    fn issue(&mut self) -> Read<Command<'a>> {
        self.fixed(b';')?;
        self.fixed(b'I')?;
        self.comma()?;
        let count = self.number::<4>(1..=9999)?;
        self.comma()?;
        self.number::<3>(0..=100)?;
        self.number::<1>(0..=9)?;
        self.capital()?;
        self.byte(|b| b.is_ascii_uppercase() || b.is_ascii_digit())?;
        self.number::<1>(0..=9)?;
        self.number::<1>(0..=9)?;
        self.number::<1>(0..=9)?;
        Ok(Command::Issue(count as u16))
    }

    fn form_number(&mut self) -> Read<u8> {
        self.fixed(b';')?;
        let number = self.number::<2>(1..=20)?;
        self.comma()?;
        self.number::<1>(0..=1)?;
        Ok(number as u8)
    }

    fn begin_form(&mut self) -> Read<Command<'a>> {
        Ok(Command::BeginForm(self.form_number()?))
    }

    fn recall(&mut self) -> Read<Command<'a>> {
        let number = self.form_number()?;
        self.comma()?;
        let start = self.at;
        match self.capital()? {
            b'L' | b'M' => Ok(Command::Recall(number)),
            _ => Err(Wrong::Value(start)),
        }
    }

    fn empty_store(&mut self) -> Read<Command<'a>> {
        self.fixed(b';')?;
        self.fixed(b'B')?;
        Ok(Command::EmptyStore)
    }
}

/// What stands in front of a field's text in the line, from `told`: two digits of the field's number,
/// a byte, X, a byte and Y, as the command has them.
fn head(kind: u8, told: &[u8]) -> Head {
    let mut head = *b",T00,0000,0000,";
    head[1] = kind;
    head[2..4].copy_from_slice(&told[0..2]);
    head[5..9].copy_from_slice(&told[3..7]);
    head[10..14].copy_from_slice(&told[8..12]);
    head
}
