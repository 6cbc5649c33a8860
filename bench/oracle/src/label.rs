//! The label: its sizes, fields and drawings, what the label commands do, and the tag's line.

use crate::reader::{LabelCommand, BAR_FIELDS, MOST_STRINGS, TEXT_FIELDS};
use crate::roll::LONGEST_LINE;
use crate::text::{finish, Check, Rule, Step, Text, LONGEST_FINISHED};

const MOST_DRAWINGS: usize = 24;

/// Room for the longest line, and for the cells behind a text that is copied as a whole.
pub const LINE_ROOM: usize = LONGEST_LINE + LONGEST_FINISHED;

/// Sizes in tenths of a millimetre.
#[derive(Clone, Copy, Debug, PartialEq, Eq)]
pub struct Sizes {
    pub pitch: u16,
    pub width: u16,
    pub length: u16,
}

impl Default for Sizes {
    fn default() -> Sizes {
        Sizes { pitch: 520, width: 540, length: 500 }
    }
}

/// The bytes of a field's piece in front of its text: `,T01,0100,0050,`.
pub type Head = [u8; 15];

/// The numbers of the link strings that make a text, and how many of them; none: not a linked field.
#[derive(Clone, Copy, Debug, PartialEq, Eq)]
pub struct Links {
    numbers: [u8; 4],
    count: u8,
}

impl Links {
    pub const NONE: Links = Links { numbers: [0; 4], count: 0 };

    /// Another link behind the others, of which there are at most three.
    pub fn push(&mut self, number: u8) {
        self.numbers[usize::from(self.count)] = number;
        self.count += 1;
    }

    pub fn as_slice(&self) -> &[u8] {
        &self.numbers[..usize::from(self.count).min(4)]
    }
}

/// What PC or XB says of a field.
#[derive(Clone, Copy, Debug, PartialEq, Eq)]
pub struct Format {
    pub head: Head,
    pub check: Check,
    pub step: Step,
    /// With zero suppression: how many places at the end keep their zeros.
    pub keep: Option<u8>,
    pub links: Links,
    pub rule: Rule,
}

/// A field with its text; an empty text is no text.
#[derive(Clone, Copy, Debug, PartialEq, Eq)]
pub struct Field {
    pub format: Format,
    pub text: Text,
}

/// The link strings of a command, by their numbers from 1 on; those that were not sent are empty.
struct Strings<'a> {
    at: [&'a [u8]; MOST_STRINGS],
}

impl<'a> Strings<'a> {
    fn new(sent: &'a [u8]) -> Strings<'a> {
        let mut strings = Strings { at: [b""; MOST_STRINGS] };
        for (place, string) in strings.at.iter_mut().zip(sent.split(|&b| b == b',')) {
            *place = string;
        }
        strings
    }
}

impl Field {
    /// The strings of this field's links, joined in its own order, where they are not too long.
    fn joined(&self, strings: &Strings) -> Option<Text> {
        let mut text = Text::EMPTY;
        for &link in self.format.links.as_slice() {
            if !text.join(strings.at[usize::from(link) - 1]) {
                return None;
            }
        }
        Some(text)
    }
}

#[derive(Clone, Copy, Debug, PartialEq, Eq)]
pub enum Shape {
    /// A level or upright line of so many dots.
    Line(usize),
    /// A rectangle whose sides have so many dots.
    Rectangle(usize),
    Clear,
    Invert,
}

/// A shape between two corners, each an X and a Y in tenths of a millimetre.
#[derive(Clone, Copy, Debug, PartialEq, Eq)]
pub struct Drawing {
    pub corners: [(u16, u16); 2],
    pub shape: Shape,
}

#[derive(Clone, Debug, PartialEq, Eq)]
pub struct Label {
    pub sizes: Sizes,
    /// The text fields, then the bars.
    pub fields: [Option<Field>; TEXT_FIELDS + BAR_FIELDS],
    /// How many fields are linked.
    linked: usize,
    pub drawings: Vec<Drawing>,
}

impl Label {
    pub fn new() -> Label {
        Label {
            sizes: Sizes::default(),
            fields: [None; TEXT_FIELDS + BAR_FIELDS],
            linked: 0,
            drawings: Vec::with_capacity(MOST_DRAWINGS),
        }
    }

    /// Becomes the same as the other.
    pub fn set_to(&mut self, other: &Label) {
        self.sizes = other.sizes;
        self.fields = other.fields;
        self.linked = other.linked;
        self.drawings.clear();
        self.drawings.extend_from_slice(&other.drawings);
    }

    /// Does one command, or answers the number of its refusal and changes nothing.
    pub fn apply(&mut self, command: &LabelCommand) -> Result<(), u8> {
        match command {
            LabelCommand::Size(sizes) => self.sizes = *sizes,
            LabelCommand::Clear => self.clear(),
            LabelCommand::Format { field, format, text } => {
                if !format.check.admits(text) {
                    return Err(16);
                }
                let field = &mut self.fields[*field];
                let was = field.as_ref().is_some_and(|field| field.format.links.count > 0);
                self.linked = self.linked + usize::from(format.links.count > 0) - usize::from(was);
                *field = Some(Field { format: *format, text: Text::new(text) });
            }
            LabelCommand::Text { field, text } => self.set_text(*field, text)?,
            LabelCommand::Strings(strings) => {
                if self.linked > 0 {
                    self.set_linked(&Strings::new(strings))?;
                }
            }
            LabelCommand::Draw(drawing) => {
                if self.drawings.len() == MOST_DRAWINGS {
                    return Err(17);
                }
                self.drawings.push(*drawing);
            }
        }
        Ok(())
    }

    fn clear(&mut self) {
        for field in self.fields.iter_mut().flatten() {
            field.text = Text::EMPTY;
        }
        self.drawings.clear();
    }

    fn set_text(&mut self, field: usize, text: &[u8]) -> Result<(), u8> {
        let field = self.fields[field].as_mut().ok_or(13)?;
        if field.format.links.count > 0 {
            return Err(14);
        }
        if !field.format.check.admits(text) {
            return Err(16);
        }
        field.text = Text::new(text);
        Ok(())
    }

    fn set_linked(&mut self, strings: &Strings) -> Result<(), u8> {
        let mut outside = false;
        for field in self.fields.iter().flatten().filter(|field| field.format.links.count > 0) {
            let text = field.joined(strings).ok_or(15)?;
            outside |= !field.format.check.admits(text.as_bytes());
        }
        if outside {
            return Err(16);
        }
        for field in self.fields.iter_mut().flatten().filter(|field| field.format.links.count > 0) {
            if let Some(text) = field.joined(strings) {
                field.text = text;
            }
        }
        Ok(())
    }

    /// Writes the line of the label with this number in an issue of this size, and answers its length.
    pub fn write_line(&self, number: u16, size: u16, line: &mut [u8; LINE_ROOM]) -> usize {
        line[0..4].copy_from_slice(&four_digits(number));
        line[4] = b',';
        line[5..9].copy_from_slice(&four_digits(size));
        let mut at = 9;
        for Field { format, text } in self.fields.iter().flatten() {
            if text.is_empty() {
                continue;
            }
            let Some((head, rest)) = line[at..].split_first_chunk_mut::<15>() else {
                break;
            };
            let Some(out) = rest.first_chunk_mut::<LONGEST_FINISHED>() else {
                break;
            };
            *head = format.head;
            at += 15 + finish(text, format.check, format.keep, out);
        }
        line[at] = b'\n';
        at + 1
    }

    /// Turns every text by its step.
    pub fn turn(&mut self) {
        for Field { format, text } in self.fields.iter_mut().flatten() {
            if !format.step.is_zero() {
                format.rule.turn(text.as_mut_bytes(), &format.step);
            }
        }
    }
}

/// The last four digits of a number.
pub fn four_digits(n: u16) -> [u8; 4] {
    let digit = |unit: u16| b'0' + (n / unit % 10) as u8;
    [digit(1000), digit(100), digit(10), digit(1)]
}
