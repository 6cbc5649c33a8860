//! Writes jobs for a tag station, valid and damaged; the same seed always gives the same job.
//!
//! generate job SEED                 one job to standard output
//! generate jobs DIR FIRST COUNT     the jobs FIRST, FIRST + 1, .. as DIR/SEED.job
//! generate large KIND               a large job, to count instructions on: issue (9,999 tags of 24 fields),
//!                                   data (60,000 bytes of texts), recall (a long form, recalled over and over)
//!                                   or mixed (forms, recalls, texts, issues)
//! generate issue TAGS               the first of them with fewer tags
//!
//! Build: rustc -O generate.rs

use std::io::{self, Write};

const ESC: u8 = 0x1B;
const LF: u8 = 0x0A;
const NUL: u8 = 0x00;
const LONGEST_JOB: usize = 60_000;
const LONGEST_FORM: usize = 1024;
const TEXT_FIELDS: usize = 16;
const BAR_FIELDS: usize = 8;
const CODE_39: &[u8] = b"0123456789ABCDEFGHIJKLMNOPQRSTUVWXYZ-. $/+%";

/// The generator of random numbers (splitmix64).
struct Random(u64);

impl Random {
    fn next(&mut self) -> u64 {
        self.0 = self.0.wrapping_add(0x9E37_79B9_7F4A_7C15);
        let mut z = self.0;
        z = (z ^ (z >> 30)).wrapping_mul(0xBF58_476D_1CE4_E5B9);
        z = (z ^ (z >> 27)).wrapping_mul(0x94D0_49BB_1331_11EB);
        z ^ (z >> 31)
    }

    fn below(&mut self, n: usize) -> usize {
        (self.next() % n as u64) as usize
    }

    /// True so many times in a thousand.
    fn chance(&mut self, per_mille: usize) -> bool {
        self.below(1000) < per_mille
    }

    fn pick<'a, T>(&mut self, from: &'a [T]) -> &'a T {
        &from[self.below(from.len())]
    }
}

/// What is known of a field while a job is written, so that most of its commands are accepted.
#[derive(Clone, Copy, PartialEq)]
enum Field {
    None,
    Data(Check),
    Linked,
}

#[derive(Clone, Copy, PartialEq)]
enum Check {
    None,
    Modulus10,
    Modulus43,
}

fn command(body: &[u8]) -> Vec<u8> {
    let mut bytes = vec![ESC];
    bytes.extend_from_slice(body);
    bytes.extend_from_slice(&[LF, NUL]);
    bytes
}

struct Job {
    random: Random,
    bytes: Vec<u8>,
    /// How many parts in a thousand are outside of their limits.
    wild: usize,
    /// How many commands in a thousand are damaged.
    damage: usize,
    /// The text fields, then the bars.
    fields: [Field; TEXT_FIELDS + BAR_FIELDS],
    /// The numbers of the forms saved so far.
    saved: Vec<String>,
}

impl Job {
    fn new(seed: u64) -> Job {
        Job {
            random: Random(seed),
            bytes: Vec::new(),
            wild: 0,
            damage: 0,
            fields: [Field::None; TEXT_FIELDS + BAR_FIELDS],
            saved: Vec::new(),
        }
    }

    // Parts.

    /// A number from `low` to `high`, often one of the two, sometimes just outside.
    fn part(&mut self, low: u64, high: u64, digits: usize) -> String {
        let value = if self.random.chance(self.wild) {
            let most = 10u64.pow(digits as u32) - 1;
            *self.random.pick(&[low.saturating_sub(1), high + 1, 0, most])
        } else {
            match self.random.below(6) {
                0 => low,
                1 => high,
                _ => low + self.random.below((high - low + 1) as usize) as u64,
            }
        };
        format!("{value:0digits$}")
    }

    /// One of these choices, sometimes another one.
    fn choice(&mut self, admitted: &[&str], others: &[&str]) -> String {
        if self.random.chance(self.wild) {
            self.random.pick(others).to_string()
        } else {
            self.random.pick(admitted).to_string()
        }
    }

    fn capital(&mut self) -> String {
        self.choice(&["A", "B", "C", "K", "Y", "Z"], &["a", "@", "[", "1", " ", ""])
    }

    fn x(&mut self) -> String {
        self.part(0, 539, 4)
    }

    fn y(&mut self) -> String {
        self.part(0, 499, 4)
    }

    fn step(&mut self) -> String {
        let sign = self.choice(&["+", "+", "-"], &["", " ", "*", ","]);
        let any = self.random.next() % 10_000_000_000;
        let short = self.random.next() % 1000;
        let choices = [0, 1, 1, 1, 2, 9, 10, 99, 1000, 999_999_999, 9_999_999_999, any, any, short];
        let value = *self.random.pick(&choices);
        format!("{sign}{value:010}")
    }

    fn length(&mut self) -> usize {
        if self.random.chance(self.wild) {
            return *self.random.pick(&[41, 41, 42, 60]);
        }
        match self.random.below(12) {
            0 => 0,
            1 => 40,
            2 => 39,
            3 => 20 + self.random.below(3),
            4 => self.random.below(41),
            _ => 1 + self.random.below(10),
        }
    }

    /// A text that mostly passes the check.
    fn text_for(&mut self, check: Check) -> String {
        let length = self.length();
        self.text_of(check, length)
    }

    fn text_of(&mut self, check: Check, length: usize) -> String {
        let check = if self.random.chance(self.wild) { Check::None } else { check };
        let style = self.random.below(6);
        let mut text = String::new();
        while text.len() < length {
            let digit = char::from(b'0' + self.random.below(10) as u8);
            let next = match (check, style) {
                (Check::Modulus43, 0..=3) => char::from(*self.random.pick(CODE_39)),
                (Check::Modulus10, 0..=3) => digit,
                (_, 4) => '9',
                (_, 5) => *self.random.pick(&['0', '0', '0', digit]),
                (_, 0) => digit,
                (_, 1) => *self.random.pick(&['>', digit, digit, digit, 'A']),
                (_, 2) => *self.random.pick(&['9', '9', '0', 'B', '-', '/', ':', '@', 'Z', digit]),
                _ => char::from(b' ' + self.random.below(95) as u8),
            };
            text.push(if next == ',' { '.' } else { next });
        }
        if self.random.chance(self.wild) && !text.is_empty() {
            let at = self.random.below(text.len());
            let wrong = *self.random.pick(&[",", "\x7f", "\x1f", "\x1b", "\0", "\t", "\r"]);
            text.replace_range(at..at + 1, wrong);
        }
        text
    }

    fn links(&mut self) -> String {
        let most = if self.random.chance(self.wild) { 5 } else { 1 + self.random.below(4) };
        let numbers: Vec<String> = (0..most).map(|_| self.part(1, 8, 2)).collect();
        numbers.join(",")
    }

    // Commands; each answers its body.

    fn size(&mut self) -> String {
        let length = self.part(80, 500, 4);
        let low = length.parse().unwrap_or(500).min(1500);
        let pitch = self.part(low, 1500, 4);
        let width = self.part(100, 540, 4);
        format!("D{pitch},{width},{length}")
    }

    /// The options behind a format, and what the field then is.
    fn options(&mut self, check: Check) -> (String, Field) {
        let mut options = String::new();
        if self.random.chance(600) {
            options += &format!(",{}", self.step());
        }
        if self.random.chance(400) {
            options += &format!(",Z{}", self.part(0, 41, 2));
        }
        match self.random.below(4) {
            0 => {
                options += &format!("={}", self.text_for(check));
                (options, Field::Data(check))
            }
            1 => {
                options += &format!(";{}", self.links());
                (options, Field::Linked)
            }
            _ => (options, Field::Data(check)),
        }
    }

    fn text_format_start(&mut self) -> (usize, String) {
        let number = self.part(1, 16, 3);
        let (x, y) = (self.x(), self.y());
        let (w, h) = (self.part(1, 9, 1), self.part(1, 9, 1));
        let font = self.capital();
        let turn = self.choice(&["00", "11", "22", "33"], &["01", "44", "10", "0", "AA"]);
        let kind = self.capital();
        let field = number.parse::<usize>().unwrap_or(0);
        (field, format!("PC{number};{x},{y},{w},{h},{font},{turn},{kind}"))
    }

    fn text_format(&mut self) -> String {
        let (number, start) = self.text_format_start();
        let (check, letters) = match self.random.below(4) {
            0 => (Check::Modulus10, self.choice(&[",M0"], &[",M2", ",MA", ",m0"])),
            1 => (Check::Modulus43, self.choice(&[",M1"], &[",M9", ",M", ",1"])),
            _ => (Check::None, String::new()),
        };
        let (options, field) = self.options(check);
        if (1..=TEXT_FIELDS).contains(&number) {
            self.fields[number - 1] = field;
        }
        format!("{start}{letters}{options}")
    }

    fn bar_format_start(&mut self) -> (usize, Check, String) {
        let number = self.part(1, 8, 2);
        let (x, y) = (self.x(), self.y());
        let (kind, digit) = match self.random.below(3) {
            0 => (self.choice(&["3"], &["2", "0", "A"]), self.choice(&["3"], &["2", "9", "B"])),
            1 => (self.choice(&["3"], &["4", "8", " "]), self.choice(&["1"], &["0", "2", ""])),
            _ => (self.choice(&["9"], &["8", "", "a"]), self.choice(&["1"], &["3", "3", "2"])),
        };
        let mut body = format!("XB{number};{x},{y},{kind},{digit}");
        for _ in 0..5 {
            body += &format!(",{}", self.part(0, 99, 2));
        }
        body += &format!(",{},{}", self.part(0, 3, 1), self.part(0, 9999, 4));
        let check = if digit == "3" { Check::Modulus43 } else { Check::None };
        (number.parse::<usize>().unwrap_or(0), check, body)
    }

    fn bar_format(&mut self) -> String {
        let (number, check, start) = self.bar_format_start();
        let (options, field) = self.options(check);
        if (1..=BAR_FIELDS).contains(&number) {
            self.fields[TEXT_FIELDS + number - 1] = field;
        }
        start + &options
    }

    /// Data for a field that takes it, if there is one; sometimes for any field.
    fn data(&mut self) -> String {
        let takes: Vec<usize> =
            (0..self.fields.len()).filter(|&i| matches!(self.fields[i], Field::Data(_))).collect();
        if takes.is_empty() || self.random.chance(30) {
            let number = self.part(1, 16, 3);
            let text = self.text_for(Check::None);
            return format!("RC{number};{text}");
        }
        let field = *self.random.pick(&takes);
        let Field::Data(check) = self.fields[field] else { unreachable!() };
        let text = self.text_for(check);
        if field < TEXT_FIELDS {
            format!("RC{:03};{text}", field + 1)
        } else {
            format!("RB{:02};{text}", field + 1 - TEXT_FIELDS)
        }
    }

    fn strings(&mut self) -> String {
        let most = if self.random.chance(self.wild) { 9 } else { 1 + self.random.below(8) };
        let check = *self.random.pick(&[Check::Modulus10, Check::Modulus43, Check::Modulus10, Check::None]);
        let short = self.random.chance(800);
        let strings: Vec<String> = (0..most)
            .map(|_| {
                if short {
                    let n = self.random.below(11);
                    self.text_of(check, n)
                } else {
                    self.text_for(check)
                }
            })
            .collect();
        format!("RC;{}", strings.join(","))
    }

    fn line(&mut self) -> String {
        let (x, y) = (self.x(), self.y());
        let (mut x1, mut y1) = (self.x(), self.y());
        let rectangle = self.random.chance(400);
        if !rectangle && !self.random.chance(self.wild) {
            match self.random.below(5) {
                0 | 1 => x1 = x.clone(),
                2 | 3 => y1 = y.clone(),
                _ => (x1, y1) = (x.clone(), y.clone()),
            }
        }
        let e = if rectangle {
            self.choice(&["1"], &["2", "A", ""])
        } else {
            self.choice(&["0"], &["2", "9", "a"])
        };
        let f = self.part(1, 9, 1);
        format!("LC;{x},{y},{x1},{y1},{e},{f}")
    }

    fn area(&mut self) -> String {
        let e = self.choice(&["A", "B"], &["C", "Z", "a", "1", ""]);
        format!("XR;{},{},{},{},{e}", self.x(), self.y(), self.x(), self.y())
    }

    fn issue(&mut self) -> String {
        let count = match self.random.below(30) {
            0 => 12,
            1 => 30,
            n => 1 + n % 4,
        };
        self.issue_of(count)
    }

    fn issue_of(&mut self, count: usize) -> String {
        let wild_count = self.random.chance(self.wild);
        let count = if wild_count { "0000".to_string() } else { format!("{count:04}") };
        let kind = self.choice(&["I"], &["J", "i", ""]);
        let cut = self.part(0, 100, 3);
        let s = self.part(0, 9, 1);
        let m = self.capital();
        let v = self.choice(&["A", "Z", "0", "9", "3"], &["a", "-", ""]);
        let rest = format!("{}{}{}", self.part(0, 9, 1), self.part(0, 9, 1), self.part(0, 9, 1));
        format!("XS;{kind},{count},{cut}{s}{m}{v}{rest}")
    }

    fn form_number(&mut self) -> String {
        if self.random.chance(700) {
            return format!("{:02}", 1 + self.random.below(4));
        }
        self.part(1, 20, 2)
    }

    fn begin(&mut self) -> String {
        format!("XO;{},{}", self.form_number(), self.part(0, 1, 1))
    }

    fn recall(&mut self) -> String {
        let known = !self.saved.is_empty() && self.random.chance(850);
        let number = if known { self.random.pick(&self.saved).clone() } else { self.form_number() };
        let b = self.part(0, 1, 1);
        let c = self.choice(&["L", "M"], &["K", "N", "l", "0", ""]);
        format!("XQ;{number},{b},{c}")
    }

    fn label_command(&mut self) -> String {
        match self.random.below(20) {
            0 => self.size(),
            1 => "C".to_string(),
            2..=5 => self.text_format(),
            6 | 7 => self.bar_format(),
            8..=13 => self.data(),
            14 | 15 => self.strings(),
            16 | 17 => self.line(),
            18 => self.area(),
            _ => self.data(),
        }
    }

    fn odd_command(&mut self) -> String {
        let bodies = [
            "",
            "Q",
            "X",
            "J",
            "P",
            "J2;B",
            "CX",
            "WSX",
            "D",
            "c",
            "XP;",
            "J1;C",
            "J1",
            "PC001",
            "RC",
            "RB;A",
            "RC01;A",
            "RC017;X",
            "PC0171;",
            "XS;I,2,",
            "LC",
            "WR0",
            "RC;1,2,3,4,5,6,7,8,9",
            "RC;,,,,,,,",
            "LC;0000,0000,0001,0001,0,0",
            "LC;0000,0000,0001,0001,0",
            "LC;0000,0000,0001,0001,00",
            "LC;0000,0000,0001,0001,2,0",
            "LC;0000,0000,0001,0001",
            "D0499,0540,0500X",
            "D0100,0099,0200",
            "XB01;0000,0000,9,3,0",
            "PC001;0100,0050,1,1,A,00,B,",
            "PC001;0100,0050,1,1,A,00,B,Z03,M0",
            "PC001;0100,0050,1,1,A,00,B;01=A",
            "D0100,0540,0200",
            "XC;0000,0000,0001,0001,0,0",
        ];
        self.random.pick(&bodies).to_string()
    }

    // Writing commands.

    /// Adds a command, sometimes damaged; tells whether it is whole.
    fn push(&mut self, body: &str) -> bool {
        let mut bytes = command(body.as_bytes());
        let damaged = self.random.chance(self.damage);
        if damaged {
            damage_command(&mut self.random, &mut bytes);
        }
        self.bytes.extend_from_slice(&bytes);
        !damaged
    }

    /// Adds a command that the rest of the job rests on: damaged, it is sent once more.
    fn push_surely(&mut self, body: &str) {
        if !self.push(body) {
            self.bytes.extend_from_slice(&command(body.as_bytes()));
        }
    }

    fn push_issue(&mut self) {
        let body = self.issue();
        self.push(&body);
    }

    fn push_labels(&mut self, count: usize) {
        for _ in 0..count {
            let body = self.label_command();
            self.push(&body);
        }
    }

    /// Formats for a few fields, so that data finds some.
    fn push_formats(&mut self, count: usize) {
        for _ in 0..count {
            let body = if self.random.chance(700) { self.text_format() } else { self.bar_format() };
            self.push(&body);
        }
    }

    // Kinds of jobs.

    /// A bit of everything, mostly accepted.
    fn mixed(&mut self) {
        let formats = 2 + self.random.below(8);
        self.push_formats(formats);
        for _ in 0..5 + self.random.below(40) {
            match self.random.below(100) {
                0..=69 => self.push_labels(1),
                70..=84 => self.push_issue(),
                85 => {
                    let body = self.odd_command();
                    self.push(&body);
                }
                86..=88 => {
                    self.push("WS");
                }
                89 => {
                    self.push("WR");
                    self.fields = [Field::None; 24];
                    self.push_formats(3);
                }
                90..=94 => self.save(),
                _ if self.saved.is_empty() => self.save(),
                _ => {
                    let body = self.recall();
                    self.push(&body);
                }
            }
        }
        self.push_issue();
    }

    /// Saves a form of a few commands.
    fn save(&mut self) {
        let begin = self.begin();
        self.push_surely(&begin);
        let count = self.random.below(9);
        self.push_labels(count);
        match self.random.below(12) {
            0 => {
                self.push("WS");
            }
            1 => self.push_issue(),
            2 => {
                let body = self.begin();
                self.push(&body);
            }
            3 => {
                self.push("J1;B");
            }
            _ => {}
        }
        if self.random.chance(60) {
            self.push_surely("WR");
            self.fields = [Field::None; 24];
        } else {
            self.push_surely("XP");
            self.saved.push(begin[3..5].to_string());
        }
    }

    /// A form of drawings, recalled until they are too many.
    fn drawn_form(&mut self) {
        self.push_surely("XO;05,1");
        for _ in 0..7 + self.random.below(4) {
            let body = if self.random.chance(700) { self.line() } else { self.area() };
            self.push(&body);
        }
        self.push_surely("XP");
        for _ in 0..2 + self.random.below(3) {
            self.push("XQ;05,0,M");
        }
    }

    /// Formats for the text fields 1 to 3, which take any data.
    fn push_three_fields(&mut self) {
        for field in 1..=3 {
            self.push(&format!("PC{field:03};0000,0000,1,1,A,00,B={field}"));
            self.fields[field - 1] = Field::Data(Check::None);
        }
    }

    /// Forms saved, recalled, replaced and emptied.
    fn forms(&mut self) {
        self.push_formats(3);
        for _ in 0..4 + self.random.below(10) {
            match self.random.below(10) {
                0..=2 => self.save(),
                _ if self.saved.is_empty() => self.save(),
                3 if self.random.chance(200) => self.drawn_form(),
                3..=6 => {
                    let body = self.recall();
                    self.push(&body);
                    self.push_issue();
                }
                7 => {
                    let emptied = *self.random.pick(&["J1;B", "XP", "WS", "C"]);
                    self.push(emptied);
                }
                _ => self.push_labels(2),
            }
        }
        self.push_issue();
    }

    /// Drafts at and around their limit.
    fn full_draft(&mut self) {
        self.push_three_fields();
        self.push_formats(1);
        for form in 1..=1 + self.random.below(3) {
            self.push_surely(&format!("XO;{form:02},0"));
            let aim = LONGEST_FORM - 3 + self.random.below(6);
            self.fill_draft(aim);
            self.push_labels(2);
            self.push_surely("XP");
            self.push(&format!("XQ;{form:02},1,M"));
            self.push_issue();
        }
    }

    /// Sends exactly so many bytes of data commands (if 9 or more) for the form being saved.
    fn fill_draft(&mut self, aim: usize) {
        let mut left = aim;
        while left > 60 {
            let length = self.random.below(41);
            let text = self.text_of(Check::Modulus10, length);
            let body = format!("RC{:03};{text}", 1 + self.random.below(3));
            left -= body.len() + 3;
            self.bytes.extend_from_slice(&command(body.as_bytes()));
        }
        while left >= 9 {
            let length = (left - 9).min(40);
            let length =
                if left - 9 - length < 9 && left - 9 != length { length.saturating_sub(9) } else { length };
            let body = format!("RC001;{}", "7".repeat(length));
            left -= body.len() + 3;
            self.bytes.extend_from_slice(&command(body.as_bytes()));
        }
    }

    /// A store filled to its last byte and beyond.
    fn full_store(&mut self) {
        self.push_three_fields();
        let mut left: usize = 8192;
        let mut form = 1;
        while left > 40 {
            let aim = if self.random.chance(800) { LONGEST_FORM } else { 60 + self.random.below(900) };
            let aim = aim.min(left);
            let aim = if left - aim < 40 && left != aim { aim - 30 } else { aim };
            self.save_exactly(form, aim);
            left -= aim;
            form += 1;
            if form == 18 {
                break;
            }
        }
        let over = self.random.below(3) * 9 + left;
        self.save_exactly(form, over);
        self.push_surely("XP");
        self.push_surely("WR");
        self.push_three_fields();
        let number = 1 + self.random.below(form);
        self.push(&format!("XQ;{number:02},0,L"));
        let replaced = 1 + self.random.below(3);
        let aim = 40 + self.random.below(900);
        self.save_exactly(replaced, aim);
        self.push_surely("WR");
        self.save_exactly(19, LONGEST_FORM);
        self.push_surely("WR");
        if self.random.chance(500) {
            self.push("J1;B");
        }
        self.push_three_fields();
        let recalls = 1 + self.random.below(4);
        for _ in 0..recalls {
            let body = self.recall();
            self.push(&body);
            self.push_issue();
        }
    }

    fn save_exactly(&mut self, form: usize, bytes: usize) {
        self.push_surely(&format!("XO;{form:02},0"));
        self.fill_draft(bytes);
        self.push_surely("XP");
        self.saved.push(format!("{form:02}"));
    }

    /// Linked fields and their strings.
    fn linked(&mut self) {
        for _ in 0..2 + self.random.below(8) {
            let check = *self.random.pick(&["", "", ",M0", ",M1"]);
            let links = self.links();
            let body = if self.random.chance(700) {
                format!("{}{check};{links}", self.text_format_start().1)
            } else {
                format!("{};{links}", self.bar_format_start().2)
            };
            self.push(&body);
        }
        for _ in 0..3 + self.random.below(12) {
            let body = self.strings();
            self.push(&body);
            if self.random.chance(400) {
                self.push_issue();
            }
            if self.random.chance(200) {
                self.push_labels(1);
            }
        }
        self.push_issue();
    }

    /// Counting: both rules, every length, steps of up to ten digits.
    fn counting(&mut self) {
        for _ in 0..1 + self.random.below(6) {
            let step = self.step();
            let text = self.text_for(Check::None);
            let zeros =
                if self.random.chance(300) { format!(",Z{}", self.part(0, 41, 2)) } else { String::new() };
            let start =
                if self.random.chance(500) { self.text_format_start().1 } else { self.bar_format_start().2 };
            self.push(&format!("{start},{step}{zeros}={text}"));
        }
        for _ in 0..1 + self.random.below(4) {
            let count = 1 + self.random.below(25);
            let body = self.issue_of(count);
            self.push(&body);
            let body = self.label_command();
            self.push(&body);
        }
    }

    /// Options in any order, doubled or left out.
    fn shuffled_options(&mut self) {
        for _ in 0..20 {
            let text_field = self.random.chance(600);
            let mut body = if text_field { self.text_format_start().1 } else { self.bar_format_start().2 };
            for _ in 0..self.random.below(5) {
                let option = match self.random.below(10) {
                    0 | 1 => format!(",M{}", self.random.below(3)),
                    2 | 3 => format!(",{}", self.step()),
                    4 | 5 => format!(",Z{}", self.part(0, 41, 2)),
                    6 | 7 => format!("={}", self.text_for(Check::Modulus10)),
                    8 => format!(";{}", self.links()),
                    _ => self
                        .random
                        .pick(&[",", ",Q", ";", "=", ",Z", ",M", ",+", "A", ",01", ";01,"])
                        .to_string(),
                };
                body += &option;
            }
            self.push(&body);
        }
        self.push_labels(5);
        self.push_issue();
    }

    /// Every part of every command at, below and above its limits.
    fn limits(&mut self) {
        self.wild = 60;
        for _ in 0..40 {
            let body = match self.random.below(12) {
                0 => self.size(),
                1 | 2 => self.text_format(),
                3 | 4 => self.bar_format(),
                5 => self.data(),
                6 => self.strings(),
                7 => self.line(),
                8 => self.area(),
                9 => self.issue(),
                10 => self.recall(),
                _ => self.begin(),
            };
            self.push(&body);
            if body.starts_with("XO") {
                self.push_labels(2);
                self.push("XP");
            }
        }
        self.wild = 0;
        self.push_issue();
    }

    /// Up to 24 drawings and some more.
    fn drawings(&mut self) {
        for _ in 0..15 + self.random.below(16) {
            let body = if self.random.chance(700) { self.line() } else { self.area() };
            self.push(&body);
        }
        let body = self.size();
        self.push(&body);
        if self.random.chance(300) {
            self.push("C");
            let body = self.line();
            self.push(&body);
        }
        self.push_issue();
    }

    /// Commands at the limit of their length, and LFs without their NUL.
    fn command_ends(&mut self) {
        self.push_formats(3);
        for _ in 0..6 {
            let body = self.label_command();
            let mut bytes = body.into_bytes();
            let total = 252 + self.random.below(7);
            match self.random.below(5) {
                0 => bytes.resize(total - 3, b'A'),
                1 => bytes = [b"RC;", vec![b'7'; total - 6].as_slice()].concat(),
                2 => bytes.extend_from_slice(b"\nX"),
                3 => bytes.extend_from_slice(b"\n\n\0"),
                _ => bytes.extend_from_slice(b"\0"),
            }
            self.bytes.extend_from_slice(&command(&bytes));
            self.push_labels(2);
        }
        let strings = vec!["1".repeat(29); 8].join(",");
        self.push(&format!("RC;{strings}"));
        self.push_issue();
    }

    /// An issue that is larger than a roll.
    fn long_issue(&mut self) {
        self.push("PC001;0100,0050,1,1,A,00,B,M0,+0000000001,Z03=0998");
        self.push("XB01;0100,0050,9,1,02,02,04,04,06,0,0100,-0000000007=A>91");
        let count = 501 + self.random.below(2000);
        let body = self.issue_of(count);
        self.push(&body);
        self.push_labels(3);
        self.push_issue();
    }

    /// A job of exactly so many bytes.
    fn of_length(&mut self, length: usize) {
        self.push_formats(6);
        while self.bytes.len() + 600 < length {
            let body = self.label_command();
            self.push(&body);
        }
        self.push_issue();
        while self.bytes.len() < length {
            let left = length - self.bytes.len();
            let body = format!("RC001;{}", "4".repeat(left.saturating_sub(9).min(30)));
            let command = command(body.as_bytes());
            self.bytes.extend_from_slice(&command[..command.len().min(left)]);
        }
    }

    fn noise(&mut self) {
        for _ in 0..self.random.below(300) {
            let any = self.random.next() as u8;
            let byte = *self.random.pick(&[ESC, LF, NUL, b'C', b'X', b';', b',', b'0', any]);
            self.bytes.push(byte);
        }
    }

    /// Changes a few bytes anywhere in the job.
    fn damage_bytes(&mut self) {
        for _ in 0..1 + self.random.below(8) {
            if self.bytes.is_empty() {
                return;
            }
            let at = self.random.below(self.bytes.len());
            let any = self.random.next() as u8;
            let byte = *self.random.pick(&[ESC, LF, NUL, b',', b'0', b'A', any]);
            match self.random.below(4) {
                0 => self.bytes[at] ^= 1 << self.random.below(8),
                1 => self.bytes[at] = byte,
                2 => self.bytes.insert(at, byte),
                _ => {
                    self.bytes.remove(at);
                }
            }
        }
    }
}

/// Damages one command: a byte changed, lost or added, an end cut off, and the like.
fn damage_command(random: &mut Random, bytes: &mut Vec<u8>) {
    let at = random.below(bytes.len());
    let last = bytes.len() - 1;
    let any = random.next() as u8;
    let control = *random.pick(&[ESC, LF, NUL, 0x7F, 0x1F, 0x80, b',']);
    match random.below(18) {
        0 => bytes[at] ^= 1 << random.below(8),
        1 => bytes[at] = any,
        2 => {
            bytes.remove(at);
        }
        3 => bytes.insert(at, any),
        4 => bytes[at] = control,
        5 => bytes.insert(at, control),
        6 => bytes.truncate(at),
        7 => {
            bytes.remove(0);
        }
        8 => bytes[last] = any,
        9 => {
            bytes.remove(last);
        }
        10 => bytes.swap(at, at.saturating_sub(1)),
        11 => {
            let end = (at + 5).min(last - 1).max(at);
            let piece = bytes[at..end].to_vec();
            bytes.splice(at..at, piece);
        }
        12 => {
            bytes.splice(0..0, b"noise".to_vec());
        }
        13 => {
            bytes.remove(last - 1);
        }
        14 => bytes[at] ^= 0x20,
        15 => {
            let cut = at.clamp(1, last - 1);
            bytes.drain(cut..last - 1);
        }
        16 => bytes.insert(last - 1, *random.pick(b",;=01AMZ+ ")),
        _ => {
            if let Some(digit) = bytes.iter().position(|b| b.is_ascii_digit()) {
                bytes[digit] = b'0' + random.below(10) as u8;
            }
        }
    }
}

fn job(seed: u64) -> Vec<u8> {
    let mut job = Job::new(seed.wrapping_mul(0x2545_F491_4F6C_DD1D));
    job.wild = *job.random.pick(&[0, 0, 2, 10]);
    job.damage = *job.random.pick(&[0, 0, 20, 100]);
    match seed % 40 {
        0..=7 => job.mixed(),
        8..=13 => job.forms(),
        14 | 15 => job.full_draft(),
        16 => {
            job.damage /= 10;
            job.full_store();
        }
        17..=20 => job.linked(),
        21..=24 => job.counting(),
        25..=27 => job.shuffled_options(),
        28..=30 => job.limits(),
        31 => job.drawings(),
        32 => job.command_ends(),
        33 => match seed / 40 % 6 {
            0 => job.long_issue(),
            1 => job.of_length(LONGEST_JOB),
            2 => job.of_length(LONGEST_JOB + 1),
            3 => {}
            _ => job.noise(),
        },
        34 | 35 => {
            job.mixed();
            let length = job.random.below(job.bytes.len() + 1);
            job.bytes.truncate(length);
        }
        36 => {
            job.forms();
            job.damage_bytes();
        }
        _ => {
            job.mixed();
            job.damage_bytes();
        }
    }
    job.bytes
}

/// What a large job for counting instructions is made of, from a seed of its own.
struct Large {
    random: Random,
    bytes: Vec<u8>,
}

impl Large {
    fn new(seed: u64) -> Large {
        Large { random: Random(seed), bytes: Vec::new() }
    }

    fn push(&mut self, body: String) {
        self.bytes.extend(command(body.as_bytes()));
    }

    fn room(&self) -> usize {
        LONGEST_JOB - self.bytes.len()
    }

    fn digits(&mut self, count: usize) -> String {
        (0..count).map(|_| char::from(b'0' + self.random.below(10) as u8)).collect()
    }

    /// So many characters that modulus 43 takes.
    fn code_39(&mut self, count: usize) -> String {
        (0..count).map(|_| char::from(*self.random.pick(CODE_39))).collect()
    }

    /// Digits with marks of Code 128 among them, up to so many bytes.
    fn code_128(&mut self, count: usize) -> String {
        let mut text = String::new();
        while text.len() < count {
            text.push_str(&if self.random.chance(300) { format!(">{}", self.digits(1)) } else { self.digits(1) });
        }
        text.truncate(count);
        text
    }

    fn issue(&mut self, tags: u64) {
        self.push(format!("XS;I,{tags:04},0002C3000"));
    }

    /// Text fields from 1 on, with checks, steps and zero suppression, and two bars.
    fn formats(&mut self, texts: usize) {
        for field in 1..=texts {
            let check = ["", ",M0", ""][field % 3];
            self.push(format!("PC{field:03};0100,{:04},1,1,A,00,B{check},+0000000001,Z03", 20 * field));
        }
        self.push("PC016;0100,0400,1,1,A,00,B;01,02".to_string());
        self.push("XB01;0300,0100,9,1,02,04,06,08,10,0,0100,+0000000001".to_string());
        self.push("XB02;0300,0300,3,3,02,04,06,08,10,0,0100,-0000000001,Z02".to_string());
    }

    /// Texts for such fields, and link strings.
    fn texts(&mut self, texts: usize) {
        for field in 1..=texts {
            let count = 5 + self.random.below(8);
            let text = self.digits(count);
            self.push(format!("RC{field:03};{text}"));
        }
        let (bar, code, first, second) = (self.code_128(14), self.code_39(10), self.code_39(8), self.digits(6));
        self.push(format!("RB01;{bar}"));
        self.push(format!("RB02;{code}"));
        self.push(format!("RC;{first},{second}"));
    }

    /// One issue of so many tags with all 24 fields, each of forty bytes and with a step.
    fn one_issue(&mut self, tags: u64) {
        let steps = ["+0000000001", "-0000000001", "+0000000007", "+0000000001", "-9999999999", "+0000000001"];
        for field in 1..=TEXT_FIELDS {
            let (check, text) = match field {
                1..=8 => (",M0", format!("{:0>40}", self.digits(10))),
                _ => (",M1", self.code_39(30) + &self.digits(10)),
            };
            let zeros = if field % 4 == 0 { ",Z03" } else { "" };
            let step = steps[field % 6];
            self.push(format!("PC{field:03};{:04},0050,1,1,A,00,B{check},{step}{zeros}={text}", 30 * field));
        }
        for field in 1..=BAR_FIELDS {
            let (kind, check) = if field % 2 == 0 { (9, 1) } else { (3, 3) };
            let text = if kind == 9 { self.code_128(40) } else { self.code_39(30) + &self.digits(10) };
            let y = 50 * field;
            self.push(format!("XB{field:02};0040,{y:04},{kind},{check},02,04,06,08,10,0,0080,+0000000001={text}"));
        }
        self.issue(tags);
    }

    /// Formats, then texts and link strings up to the longest job, and one tag.
    fn data(&mut self) {
        self.formats(12);
        while self.room() > 500 {
            self.texts(12);
        }
        self.issue(1);
    }

    /// A form of nearly the longest, recalled until the job is full.
    fn recalls(&mut self) {
        self.push("XO;01,0".to_string());
        let start = self.bytes.len();
        self.formats(6);
        while LONGEST_FORM - (self.bytes.len() - start) > 200 {
            self.texts(6);
        }
        self.push("XP".to_string());
        while self.room() > 40 {
            self.push("XQ;01,0,L".to_string());
        }
        self.issue(1);
    }

    /// Six forms, then recalls with data, issues, status, and a form that there is not.
    fn shop(&mut self) {
        for form in 1..=6 {
            self.push(format!("XO;{form:02},0"));
            self.push("D0520,0540,0500".to_string());
            self.push("C".to_string());
            self.formats(form);
            self.push("LC;0000,0250,0539,0250,0,2".to_string());
            self.push("XP".to_string());
        }
        while self.room() > 400 {
            let form = 1 + self.random.below(6);
            self.push(format!("XQ;{form:02},0,L"));
            self.texts(form);
            match self.random.below(8) {
                0 => self.push("WS".to_string()),
                1 => self.push("XQ;20,0,M".to_string()),
                2 => self.push("RC001;12,3".to_string()),
                _ => {}
            }
            let tags = 1 + self.random.below(60) as u64;
            self.issue(tags);
        }
    }
}

/// A large job of the kind that is named.
fn large(kind: &str) -> Option<Vec<u8>> {
    let mut job = Large::new(1);
    match kind {
        "issue" => job.one_issue(9999),
        "data" => job.data(),
        "recall" => job.recalls(),
        "mixed" => job.shop(),
        _ => return None,
    }
    Some(job.bytes)
}

fn main() -> io::Result<()> {
    let words: Vec<String> = std::env::args().skip(1).collect();
    let words: Vec<&str> = words.iter().map(String::as_str).collect();
    let number = |word: &str| word.parse::<u64>().expect("a number");
    match words[..] {
        ["job", seed] => io::stdout().write_all(&job(number(seed))),
        ["jobs", folder, first, count] => {
            for seed in number(first)..number(first) + number(count) {
                std::fs::write(format!("{folder}/{seed}.job"), job(seed))?;
            }
            Ok(())
        }
        ["large", kind] if large(kind).is_some() => {
            io::stdout().write_all(&large(kind).unwrap_or_default())
        }
        ["issue", tags] => {
            let mut job = Large::new(1);
            job.one_issue(number(tags));
            io::stdout().write_all(&job.bytes)
        }
        _ => {
            eprintln!("usage: generate job SEED | jobs DIR FIRST COUNT | large issue|data|recall|mixed | issue TAGS");
            std::process::exit(2);
        }
    }
}
