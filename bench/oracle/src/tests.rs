//! Every example and figure of the rules, and the edges of each rule.

use crate::fault::Fault;
use crate::label::Label;
use crate::picture::{dot, BYTES, ROW_BYTES};
use crate::reader::{read, ESC, LF, NUL};
use crate::roll::Roll;
use crate::run;
use crate::station::{Station, ANSWER, WORK};
use crate::store::FormStore;
use crate::text::{finish, Check, Rule, Step, Text, LONGEST_FINISHED};

const TEXT_1: &str = "PC001;0100,0050,1,1,A,00,B";
const BAR_1: &str = "XB01;0100,0050,9,1,02,02,04,04,06,0,0100";

fn command(body: &str) -> Vec<u8> {
    let mut bytes = vec![ESC];
    bytes.extend_from_slice(body.as_bytes());
    bytes.extend_from_slice(&[LF, NUL]);
    bytes
}

fn job(bodies: &[&str]) -> Vec<u8> {
    bodies.iter().flat_map(|body| command(body)).collect()
}

fn station_with(store: FormStore, roll: u32) -> Station {
    Station::new(store, Roll::new(roll).unwrap())
}

fn new_station() -> Station {
    station_with(FormStore::packed(), 3)
}

/// What a job writes on a new station.
fn output(job: &[u8]) -> String {
    let mut out = Vec::new();
    run(&mut new_station(), job, &mut out).unwrap();
    String::from_utf8(out).unwrap()
}

fn outputs(bodies: &[&str]) -> String {
    output(&job(bodies))
}

/// Does one command that is a job of its own.
fn send(station: &mut Station, body: &str) -> Result<usize, Fault> {
    station.command(&command(body), 0, &mut [0; ANSWER], &mut [0; WORK])
}

/// A station that has accepted these commands.
fn after(bodies: &[&str]) -> Station {
    let mut station = new_station();
    for body in bodies {
        send(&mut station, body).unwrap_or_else(|fault| panic!("{body}: {fault}"));
    }
    station
}

fn fault_of(station: &mut Station, body: &str) -> String {
    send(station, body).unwrap_err().to_string()
}

fn number_after(bodies: &[&str], last: &str) -> u8 {
    send(&mut after(bodies), last).unwrap_err().number
}

/// The next tag, without its LF.
fn tag(station: &mut Station) -> String {
    let mut work = [0; WORK];
    let length = station.print(&mut work).unwrap();
    String::from_utf8(work[..length - 1].to_vec()).unwrap()
}

/// The number of the reader's fault and its place in the body; None: the body is right.
fn judge(body: &[u8]) -> Option<(u8, usize)> {
    let mut bytes = vec![ESC];
    bytes.extend_from_slice(body);
    bytes.extend_from_slice(&[LF, NUL]);
    match read(&bytes, 0) {
        Ok((_, next)) => {
            assert_eq!(next, bytes.len());
            None
        }
        Err(fault) => {
            assert_eq!(fault.next, bytes.len());
            if fault.number == 6 {
                assert_eq!(fault.place, 0);
                return Some((6, 0));
            }
            Some((fault.number, fault.place - 1))
        }
    }
}

fn right(body: &str) {
    assert_eq!(judge(body.as_bytes()), None, "{body}");
}

fn wrong(body: &str, number: u8, place: usize) {
    assert_eq!(judge(body.as_bytes()), Some((number, place)), "{body}");
}

// The figures.

fn finished(text: &str, check: Check, keep: u8) -> String {
    let mut out = [0; LONGEST_FINISHED];
    let length = finish(&Text::new(text.as_bytes()), check, Some(keep), &mut out);
    String::from_utf8(out[..length].to_vec()).unwrap()
}

#[test]
fn zeros_are_suppressed() {
    assert_eq!(finished("0000", Check::None, 0), "    ");
    assert_eq!(finished("0000", Check::None, 1), "   0");
    assert_eq!(finished("0000", Check::None, 2), "  00");
    assert_eq!(finished("0000", Check::None, 4), "0000");
    assert_eq!(finished("0000", Check::None, 5), "0000");
    assert_eq!(finished("0A12", Check::None, 2), " A12");
    assert_eq!(finished("0041", Check::Modulus10, 3), "  413");
}

fn turned(rule: Rule, text: &str, step: i64) -> String {
    let mut bytes = text.as_bytes().to_vec();
    let digits = format!("{:010}", step.abs()).into_bytes();
    rule.turn(&mut bytes, &Step::new(step < 0, digits[..].try_into().unwrap()));
    String::from_utf8(bytes).unwrap()
}

#[test]
fn texts_turn() {
    assert_eq!(turned(Rule::Code128, "0A9>08", 1), "0A9>09");
    assert_eq!(turned(Rule::Code128, "0A9>09", 1), "1A0>00");
    assert_eq!(turned(Rule::Plain, "999", 1), "000");
    assert_eq!(turned(Rule::Plain, "000", -1), "999");
    assert_eq!(turned(Rule::Plain, "5", 9_999_999_999), "4");
    assert_eq!(turned(Rule::Plain, "5", -9_999_999_999), "6");
    assert_eq!(turned(Rule::Plain, "A>5B9", 1), "A>6B0");
    assert_eq!(turned(Rule::Code128, "A>5B9", 1), "A>5B0");
    assert_eq!(turned(Rule::Code128, ">>59", 1), ">>50");
    assert_eq!(turned(Rule::Code128, "9>", 1), "0>");
    assert_eq!(turned(Rule::Plain, "BOOT", 7), "BOOT");
    assert_eq!(turned(Rule::Plain, "", 7), "");
    assert_eq!(turned(Rule::Plain, "7A8/9", 3), "7A9/2");
    assert_eq!(turned(Rule::Plain, "A2A0A", -3), "A1A7A");
    let nines = "9".repeat(40);
    assert_eq!(turned(Rule::Plain, &nines, 1), "0".repeat(40));
    assert_eq!(turned(Rule::Plain, &"0".repeat(40), -1), nines);
}

#[test]
fn check_characters() {
    assert_eq!(Check::Modulus10.character(&Text::new(b"629104150021")), Some(b'3'));
    assert_eq!(Check::Modulus43.character(&Text::new(b"BOOT7")), Some(b'9'));
    // Examples that GS1 publishes, of several lengths.
    assert_eq!(Check::Modulus10.character(&Text::new(b"37610425002123456")), Some(b'9'));
    assert_eq!(Check::Modulus10.character(&Text::new(b"61414199999")), Some(b'6'));
    assert_eq!(Check::Modulus10.character(&Text::new(b"1061414154321")), Some(b'9'));
    assert_eq!(Check::Modulus43.character(&Text::new(b"%")), Some(b'%'));
    assert_eq!(Check::Modulus43.character(&Text::new(b"CODE39")), Some(b'W'));
    assert!(Check::Modulus43.admits(b"AZ09-. $/+%"));
    assert!(!Check::Modulus43.admits(b"a"));
    assert!(!Check::Modulus43.admits(b"*"));
    assert!(!Check::Modulus10.admits(b"1 2"));
    assert!(Check::Modulus10.admits(b""));
}

#[test]
fn links_join_in_the_fields_order() {
    let format = format!("{TEXT_1};02,01");
    let mut station = after(&[&format, "RC;A,B", "XS;I,0001,0002C3000"]);
    assert_eq!(tag(&mut station), "0001,0001,T01,0100,0050,BA");
    let mut station = after(&[&format, "RC;A", "XS;I,0001,0002C3000"]);
    assert_eq!(tag(&mut station), "0001,0001,T01,0100,0050,A");
}

#[test]
fn tenths_become_dots() {
    assert_eq!(dot(539), 431);
    assert_eq!(dot(499), 399);
    assert_eq!(dot(540), 432);
    assert_eq!(dot(500), 400);
    assert_eq!(dot(0), 0);
    assert_eq!(dot(9), 7);
}

#[test]
fn a_text_has_at_most_forty_bytes() {
    for (body, start) in [("RC001;", 6), ("RB01;", 5), ("RC;", 3)] {
        right(&format!("{body}{}", "A".repeat(40)));
        wrong(&format!("{body}{}", "A".repeat(41)), 8, start);
    }
    right(&format!("{TEXT_1}={}", "A".repeat(40)));
    wrong(&format!("{TEXT_1}={}", "A".repeat(41)), 8, TEXT_1.len() + 1);
    wrong(&format!("RC001;{},", "A".repeat(41)), 7, 47);
    wrong(&format!("RC;{},\x7f", "A".repeat(41)), 8, 3);
    wrong(&format!("RC;{}\x7f", "A".repeat(41)), 7, 44);
}

// The whole program.

const EXAMPLE: [&str; 6] = [
    "D0520,0540,0500",
    "C",
    "PC001;0100,0050,1,1,A,00,B,M0,+0000000001,Z03",
    "RC001;0041",
    "XS;I,0002,0002C3000",
    "RC002;X",
];

#[test]
fn the_six_commands_give_the_three_lines() {
    let lines = "0001,0002,T01,0100,0050,  413\n0002,0002,T01,0100,0050,  420\nR,13,L,00,000105\n";
    assert_eq!(outputs(&EXAMPLE), lines);
}

#[test]
fn the_program_ends_at_the_job_and_its_length() {
    assert_eq!(output(b""), "");
    assert_eq!(output(&vec![b'x'; 60_001]), "R,01,J,00,000000\n");
    assert_eq!(output(&vec![b'x'; 60_000]), "R,04,J,00,000000\n");
}

#[test]
fn the_program_goes_on_behind_faults() {
    let mut bytes = b"noise".to_vec();
    bytes.extend(command("Q"));
    bytes.extend(b"\x1bC\n");
    bytes.extend(command("WS"));
    bytes.extend(b"noise");
    assert_eq!(output(&bytes), "R,04,J,00,000000\nR,06,J,00,000005\nR,05,J,00,000009\nR,04,J,00,000017\n");
}

#[test]
fn an_issue_goes_on_behind_an_empty_roll() {
    let format = format!("{TEXT_1},+0000000001=7");
    let mut station = new_station();
    let mut out = Vec::new();
    let tags = run(&mut station, &job(&[&format, "XS;I,0008,0002C3000"]), &mut out).unwrap();
    assert_eq!(tags, 8);
    let text = String::from_utf8(out).unwrap();
    let lines: Vec<&str> = text.lines().collect();
    assert_eq!(lines.len(), 8);
    assert_eq!(lines[2], "0003,0008,T01,0100,0050,9");
    assert_eq!(lines[3], "0004,0008,T01,0100,0050,0");
    assert_eq!(station.printer().left(), 1);
}

#[test]
fn every_text_turns_at_the_last_tag_too() {
    let format = format!("{TEXT_1},-0000000002=10");
    let text = outputs(&[&format, "XS;I,0002,0002C3000", "XS;I,0001,0002C3000"]);
    let texts: Vec<&str> = text.lines().map(|line| &line[line.len() - 2..]).collect();
    assert_eq!(texts, ["10", "08", "06"]);
}

// The examples of the faults, in the order of their numbers.

#[test]
fn fault_1() {
    let station = &mut new_station();
    let fault = station.command(&[ESC; 8], 9, &mut [0; ANSWER], &mut [0; WORK]).unwrap_err();
    assert_eq!(fault, Fault { number: 1, form: 0, place: 9, next: 9 });
    let fault = station.command(&vec![ESC; 60_001], 5, &mut [0; 12], &mut [0; WORK]).unwrap_err();
    assert_eq!(fault, Fault { number: 1, form: 0, place: 5, next: 5 });
}

#[test]
fn fault_2() {
    let station = &mut new_station();
    let job = command("C");
    let fault = Fault { number: 2, form: 0, place: 0, next: 0 };
    assert_eq!(station.command(&job, 0, &mut [0; 12], &mut [0; WORK]), Err(fault));
    assert_eq!(station.command(&job, 0, &mut [0; 13], &mut [0; 1399]), Err(fault));
    assert_eq!(station.command(b"", 0, &mut [0; 12], &mut [0; WORK]), Err(fault));
    assert_eq!(station.command(&job, 0, &mut [0; 13], &mut [0; 1400]), Ok(4));
    assert_eq!(station.print(&mut [0; 1399]), Err(fault));
    assert_eq!(station.draw(&mut vec![0; BYTES - 1]), Err(fault));
    assert_eq!(Roll::new(0).err(), Some(fault));
    assert_eq!(Roll::new(1_000_001).err(), Some(fault));
    assert!(Roll::new(1_000_000).is_ok());
}

#[test]
fn fault_3() {
    let station = &mut new_station();
    let job = command("C");
    let fault = station.command(b"", 0, &mut [0; ANSWER], &mut [0; WORK]).unwrap_err();
    assert_eq!(fault, Fault { number: 3, form: 0, place: 0, next: 0 });
    let fault = station.command(&job, 4, &mut [0; ANSWER], &mut [0; WORK]).unwrap_err();
    assert_eq!(fault, Fault { number: 3, form: 0, place: 4, next: 4 });
}

#[test]
fn fault_4() {
    assert_eq!(read(b"PC001", 0).unwrap_err(), Fault { number: 4, form: 0, place: 0, next: 5 });
    assert_eq!(read(b"PC\x1b\x1b", 1).unwrap_err(), Fault { number: 4, form: 0, place: 1, next: 2 });
}

#[test]
fn fault_5() {
    let fault = |job: &[u8]| read(job, 0).err().map(|fault| (fault.number, fault.place, fault.next));
    assert_eq!(fault(b"\x1bC"), Some((5, 0, 2)));
    assert_eq!(fault(b"\x1bC\n"), Some((5, 0, 3)));
    assert_eq!(fault(b"\x1bC\x1bC\n\0"), Some((7, 2, 6)));
    assert_eq!(fault(b"\x1bC\nX\n\0\x1b"), Some((5, 0, 6)));
    assert_eq!(fault(b"\x1bC\0\n\0"), Some((7, 2, 5)));
    let of_length = |length: usize| {
        let mut job = command(&format!("C{}", "x".repeat(length - 4)));
        assert_eq!(job.len(), length);
        job.push(ESC);
        job
    };
    assert_eq!(fault(&of_length(255)), Some((7, 2, 255)));
    assert_eq!(fault(&of_length(256)), Some((5, 0, 256)));
}

#[test]
fn fault_6() {
    for body in ["Q", "", "X", "J", "J2;B", "P", "R", "W", "c", "WX", " C", "XC;"] {
        wrong(body, 6, 0);
    }
}

#[test]
fn fault_7() {
    wrong("XS;I,2,", 7, 6);
    wrong("CX", 7, 1);
    wrong("WSX", 7, 2);
    wrong("DX520,0540,0500", 7, 1);
    wrong("D", 7, 1);
    wrong("D0520,0540,050", 7, 14);
    wrong("D0520,0540,05000", 7, 15);
    wrong("D0520;0540,0500", 7, 5);
    wrong("J1;C", 7, 3);
    wrong("J1;B ", 7, 4);
    wrong("J1", 7, 2);
    wrong("XP;", 7, 2);
    wrong("RC", 7, 2);
    wrong("RB;A", 7, 2);
    wrong("RC01;A", 7, 4);
    wrong("RC001,A", 7, 5);
    wrong("RC001;A,B", 7, 7);
    wrong("RC001;A\x1bB", 7, 7);
    wrong("RC001;A\0B", 7, 7);
    wrong("RC001;\x7f", 7, 6);
    assert_eq!(judge(b"RC001;\x1f"), Some((7, 6)));
    assert_eq!(judge(b"RC;A,\x80"), Some((7, 5)));
    wrong("RC;1,2,3,4,5,6,7,8,9", 7, 18);
    wrong("XS;J,0001,0002C3000", 7, 3);
    wrong("XS;I,0001,0002c3000", 7, 14);
    wrong("XS;I,0001,0002C-000", 7, 15);
    wrong("XS;I,0001,0002C300", 7, 18);
    wrong("XS;I,0001,0002C30000", 7, 19);
    wrong("XO;01,L", 7, 6);
    wrong("XQ;01,0,l", 7, 8);
    wrong("XQ;01,0", 7, 7);
    wrong("XR;0000,0000,0001,0001,1", 7, 23);
    wrong("LC;0000,0000,0001,0001,A,1", 7, 23);
    wrong("LC;0000,0000,0001,0001x0,1", 7, 22);
}

#[test]
fn fault_8() {
    wrong("RC017;X", 8, 2);
    wrong("RC000;X", 8, 2);
    wrong("RC0171;X", 8, 2);
    wrong("RB00;X", 8, 2);
    wrong("RB09;X", 8, 2);
    wrong("D1501,0540,0500", 8, 1);
    wrong("D0520,0099,0500", 8, 6);
    wrong("D0520,0541,0500", 8, 6);
    wrong("D0520,0540,0079", 8, 11);
    wrong("D0520,0540,0501", 8, 11);
    wrong("D0100,0540,0200", 8, 11);
    wrong("D0100,0099,0200", 8, 6);
    wrong("D0499,0540,0500X", 8, 11);
    wrong("D0000,0540,0080", 8, 11);
    right("D0080,0100,0080");
    right("D1500,0540,0500");
    wrong("XS;I,0000,0002C3000", 8, 5);
    wrong("XS;I,0001,1012C3000", 8, 10);
    right("XS;I,9999,1009ZZ999");
    right("XS;I,0001,0000A0000");
    wrong("XO;00,0", 8, 3);
    wrong("XO;21,0", 8, 3);
    wrong("XO;20,2", 8, 6);
    wrong("XQ;20,0,N", 8, 8);
    right("XQ;20,1,M");
    wrong("XR;0000,0000,0001,0001,C", 8, 23);
    right("XR;0539,0499,0000,0000,A");
    wrong("XR;0540,0499,0000,0000,A", 8, 3);
    wrong("XR;0539,0500,0000,0000,A", 8, 8);
}

#[test]
fn a_line_is_level_or_upright() {
    right("LC;0010,0020,0010,0020,0,1");
    right("LC;0010,0020,0010,0400,0,9");
    right("LC;0010,0020,0500,0020,0,9");
    right("LC;0000,0000,0001,0001,1,1");
    wrong("LC;0000,0000,0001,0001,0,1", 8, 18);
    wrong("LC;0000,0000,0001,0001,0", 8, 18);
    wrong("LC;0000,0000,0001,0001,0,0", 8, 18);
    wrong("LC;0000,0000,0001,0001,00", 8, 18);
    wrong("LC;0000,0000,0001,0001,2,1", 8, 23);
    wrong("LC;0000,0000,0001,0001,1,0", 8, 25);
    wrong("LC;0000,0000,0001,0500,0,1", 8, 18);
    wrong("LC;0000,0000,0001,0001,", 7, 23);
    wrong("LC;0000,0000,0001,0001", 7, 22);
}

#[test]
fn options_stand_in_their_order() {
    let end = TEXT_1.len();
    for check in ["", ",M0", ",M1"] {
        for step in ["", ",+0000000000", ",-9999999999"] {
            for zeros in ["", ",Z00", ",Z41"] {
                for last in ["", "=", "=12", ";01", ";08,08,01,02"] {
                    right(&format!("{TEXT_1}{check}{step}{zeros}{last}"));
                    if check.is_empty() {
                        right(&format!("{BAR_1}{step}{zeros}{last}"));
                    }
                }
            }
        }
    }
    let text = |options: &str, number, place| wrong(&format!("{TEXT_1}{options}"), number, end + place);
    text(",Q", 7, 1);
    text(",", 7, 1);
    text("B", 7, 0);
    text(",+0000000001,M0", 7, 13);
    text(",+0000000001,+0000000001", 7, 13);
    text(",M0,M1", 7, 4);
    text(",Z03,M0", 7, 4);
    text(",Z03,", 7, 4);
    text(",M2", 8, 2);
    text(",MA", 7, 2);
    text(",Z42", 8, 2);
    text(",Z4", 7, 3);
    text(",+000000001", 7, 11);
    text(",+00000000011", 7, 12);
    text(";00", 8, 1);
    text(";09", 8, 1);
    text(";01,", 7, 4);
    text(";01,09", 8, 4);
    text(";01=A", 7, 3);
    text(";1", 7, 2);
    text(";", 7, 1);
    text(";01,02,03,04,05", 7, 12);
    text("=A,B", 7, 2);
    right(&format!("{TEXT_1}=;=A"));
    let bar = |options: &str, number, place| wrong(&format!("{BAR_1}{options}"), number, BAR_1.len() + place);
    bar(",M0", 7, 1);
    bar(",Z42", 8, 2);
    bar("=\x01", 7, 1);
}

#[test]
fn parts_of_a_text_field() {
    wrong("PC000;0100,0050,1,1,A,00,B", 8, 2);
    wrong("PC0171;", 8, 2);
    wrong("PC017,", 8, 2);
    right("PC016;0539,0499,9,9,Z,33,A");
    wrong("PC001;0540,0050,1,1,A,00,B", 8, 6);
    wrong("PC001;0100,0500,1,1,A,00,B", 8, 11);
    wrong("PC001;0100,0050,0,1,A,00,B", 8, 16);
    wrong("PC001;0100,0050,1,0,A,00,B", 8, 18);
    wrong("PC001;0100,0050,1,1,a,00,B", 7, 20);
    wrong("PC001;0100,0050,1,1,1,00,B", 7, 20);
    wrong("PC001;0100,0050,1,1,A,01,B", 8, 22);
    wrong("PC001;0100,0050,1,1,A,44,B", 8, 22);
    wrong("PC001;0100,0050,1,1,A,0,B", 7, 23);
    wrong("PC001;0100,0050,1,1,A,00,1", 7, 25);
    wrong("PC001;0100,0050,1,1,A,00", 7, 24);
}

#[test]
fn parts_of_a_bar_field() {
    right("XB08;0539,0499,3,3,99,99,99,99,99,3,9999");
    right("XB01;0000,0000,3,1,00,00,00,00,00,0,0000");
    wrong("XB09;0000,0000,3,1,00,00,00,00,00,0,0000", 8, 2);
    wrong("XB00;0000,0000,3,1,00,00,00,00,00,0,0000", 8, 2);
    wrong("XB01;0000,0000,4,1,00,00,00,00,00,0,0000", 8, 15);
    wrong("XB01;0000,0000,A,1,00,00,00,00,00,0,0000", 7, 15);
    wrong("XB01;0000,0000,3,2,00,00,00,00,00,0,0000", 8, 17);
    wrong("XB01;0000,0000,9,3,00,00,00,00,00,0,0000", 8, 17);
    wrong("XB01;0000,0000,9,3,00,00,00,00,00,4", 8, 17);
    wrong("XB01;0000,0000,3,1,00,00,00,00,00,4,0000", 8, 34);
    wrong("XB01;0000,0000,3,1,00,00,00,00,0,4,0000", 7, 32);
    wrong("XB01;0000,0000,3,1,00,00,00,00,00,0,000", 7, 39);
}

#[test]
fn empty_texts_and_strings_are_admitted() {
    for body in ["RC001;", "RB01;", "RC;", "RC;,,", "RC;,,,,,,,"] {
        right(body);
    }
    wrong("RC;,,,,,,,,", 7, 10);
}

#[test]
fn fault_9() {
    let order = "XS;I,0003,0002C3000";
    for body in ["C", "XP", "XO;01,0", "XQ;01,0,L", "J1;B", order, "RC002;X"] {
        assert_eq!(number_after(&[order], body), 9, "{body}");
    }
    assert_eq!(number_after(&[order], "CX"), 7);
    assert_eq!(send(&mut after(&[order]), "WS"), Ok(5));
    let mut station = after(&[order, "WR", "C"]);
    assert_eq!(station.print(&mut [0; WORK]).unwrap_err().number, 22);
}

#[test]
fn fault_10() {
    assert_eq!(number_after(&["XO;01,0"], "XO;01,0"), 10);
    for body in ["XS;I,0001,0002C3000", "XQ;01,0,L", "J1;B"] {
        assert_eq!(number_after(&["XO;01,0"], body), 10);
    }
    let mut store = FormStore::packed();
    store.put(7, &job(&["C", "WS", "Q"])).unwrap();
    let mut station = station_with(store, 1);
    let fault = send(&mut station, "XQ;07,0,L").unwrap_err();
    assert_eq!(fault, Fault { number: 10, form: 7, place: 4, next: 12 });
}

#[test]
fn fault_11() {
    assert_eq!(fault_of(&mut new_station(), "XP"), "R,11,S,00,000000");
}

#[test]
fn fault_12() {
    let mut station = after(&["XO;01,0"]);
    for _ in 0..78 {
        send(&mut station, "RC001;0041").unwrap();
    }
    assert_eq!(send(&mut station, "RC001;0041").unwrap_err().number, 12);
    // 78 commands of 13 bytes and one of 10 are exactly 1,024.
    send(&mut station, "RC001;7").unwrap();
    assert_eq!(send(&mut station, "C").unwrap_err().number, 12);
    send(&mut station, "XP").unwrap();
    assert_eq!(station.store().get(1).unwrap().len(), 1024);
}

#[test]
fn fault_13() {
    assert_eq!(fault_of(&mut new_station(), "RC002;X"), "R,13,L,00,000000");
    assert_eq!(fault_of(&mut new_station(), "RB02;X"), "R,13,L,00,000000");
}

#[test]
fn fault_14() {
    let linked = format!("{TEXT_1},M0;01");
    assert_eq!(number_after(&[&linked], "RC001;X"), 14);
}

#[test]
fn fault_15() {
    let linked = format!("{TEXT_1},M0;01,02");
    let twice = "1".repeat(20);
    let over = "A".repeat(21);
    assert_eq!(number_after(&[&linked], &format!("RC;{over},{over}")), 15);
    send(&mut after(&[&linked]), &format!("RC;{twice},{twice}")).unwrap();
}

#[test]
fn fault_16() {
    let format = format!("{TEXT_1},M0");
    assert_eq!(number_after(&[&format], "RC001;AB"), 16);
    assert_eq!(number_after(&[], &format!("{TEXT_1},M0=AB")), 16);
    assert_eq!(number_after(&[], &format!("{TEXT_1},M1=ab")), 16);
    assert_eq!(number_after(&[], "XB01;0000,0000,3,3,00,00,00,00,00,0,0000=a"), 16);
    assert_eq!(number_after(&[&format!("{TEXT_1},M0;01")], "RC;A"), 16);
    send(&mut after(&[&format]), "RC001;").unwrap();
    send(&mut new_station(), &format!("{TEXT_1},M0=")).unwrap();
}

#[test]
fn fault_17() {
    let line = "LC;0010,0020,0010,0400,0,9";
    let area = "XR;0010,0020,0010,0400,A";
    let mut station = new_station();
    for i in 0..24 {
        send(&mut station, if i % 2 == 0 { line } else { area }).unwrap();
    }
    assert_eq!(fault_of(&mut station, line), "R,17,L,00,000000");
    assert_eq!(fault_of(&mut station, area), "R,17,L,00,000000");
    send(&mut station, "C").unwrap();
    send(&mut station, line).unwrap();
}

#[test]
fn fault_18() {
    let mut station = new_station();
    let fault = send(&mut station, "XQ;07,0,L").unwrap_err();
    assert_eq!(fault, Fault { number: 18, form: 7, place: 0, next: 12 });
    assert_eq!(fault.to_string(), "R,18,F,07,000000");
}

#[test]
fn fault_19() {
    let mut station = station_with(FormStore::with_limits(512, 10_240), 1);
    send(&mut station, "XO;01,0").unwrap();
    for _ in 0..38 {
        send(&mut station, "RC001;0041").unwrap();
    }
    // 38 commands of 13 bytes, one of 10 and one of 9 are 513.
    send(&mut station, "RC001;7").unwrap();
    send(&mut station, "RC001;").unwrap();
    assert_eq!(fault_of(&mut station, "XP"), "R,19,F,00,000000");
    assert_eq!(fault_of(&mut station, "J1;B"), "R,10,S,00,000000");
}

#[test]
fn fault_20() {
    let mut station = new_station();
    for form in 1..=8 {
        send(&mut station, &format!("XO;{form:02},0")).unwrap();
        for _ in 0..78 {
            send(&mut station, "RC001;0041").unwrap();
        }
        send(&mut station, "RC001;7").unwrap();
        send(&mut station, "XP").unwrap();
    }
    // The store is full; an empty form still goes in, one of 4 bytes does not.
    send(&mut station, "XO;09,0").unwrap();
    send(&mut station, "XP").unwrap();
    send(&mut station, "XO;09,0").unwrap();
    send(&mut station, "C").unwrap();
    assert_eq!(fault_of(&mut station, "XP"), "R,20,F,00,000000");
    assert_eq!(fault_of(&mut station, "XP"), "R,20,F,00,000000");
    send(&mut station, "WR").unwrap();
    assert_eq!(station.store().get(9), Some(&b""[..]));
    // A form that is replaced does not count.
    send(&mut station, "XO;08,0").unwrap();
    send(&mut station, "C").unwrap();
    send(&mut station, "XP").unwrap();
    send(&mut station, "J1;B").unwrap();
    assert_eq!(station.store().get(1), None);

    let mut store = FormStore::packed();
    for form in 1..=8 {
        store.put(form, &[0; 1024]).unwrap();
    }
    assert_eq!(store.put(9, b"x"), Err(20));
    assert_eq!(store.put(21, b""), Err(19));
    assert_eq!(store.put(0, b""), Err(19));
}

#[test]
fn fault_21() {
    let mut station = new_station();
    for _ in 0..10_001 {
        send(&mut station, "XS;I,9999,0002C3000").unwrap();
        send(&mut station, "WR").unwrap();
    }
    assert_eq!(fault_of(&mut station, "XS;I,0002,0002C3000"), "R,21,S,00,000000");
    send(&mut station, "XS;I,0001,0002C3000").unwrap();
    send(&mut station, "WR").unwrap();
    assert_eq!(fault_of(&mut station, "XS;I,0001,0002C3000"), "R,21,S,00,000000");
}

#[test]
fn fault_22() {
    let fault = new_station().print(&mut [0; WORK]).unwrap_err();
    assert_eq!(fault.to_string(), "R,22,S,00,000000");
    assert_eq!(after(&["XO;01,0"]).print(&mut [0; WORK]).unwrap_err().number, 22);
}

#[test]
fn fault_23() {
    let mut station = station_with(FormStore::packed(), 1);
    send(&mut station, &format!("{TEXT_1},+0000000001=1")).unwrap();
    send(&mut station, "XS;I,0002,0002C3000").unwrap();
    assert_eq!(tag(&mut station), "0001,0002,T01,0100,0050,1");
    let mut work = [7; WORK];
    assert_eq!(station.print(&mut work).unwrap_err().to_string(), "R,23,P,00,000000");
    assert_eq!(work, [7; WORK]);
    assert_eq!(station.printer().latest(), b"0001,0002,T01,0100,0050,1\n");
    station.reload();
    assert_eq!(tag(&mut station), "0002,0002,T01,0100,0050,2");
}

// The station.

fn status(station: &mut Station) -> String {
    let mut answer = [b'~'; 15];
    station.command(&command("WS"), 0, &mut answer, &mut [0; WORK]).unwrap();
    String::from_utf8(answer.to_vec()).unwrap()
}

#[test]
fn the_status_answer() {
    assert_eq!(status(&mut new_station()), "\x01\x020010000\x03\x04\r\n~~");
    assert_eq!(status(&mut after(&["XO;01,0"])), "\x01\x020010000\x03\x04\r\n~~");
    let mut station = after(&["XS;I,0012,0002C3000"]);
    assert_eq!(status(&mut station), "\x01\x020210012\x03\x04\r\n~~");
    for _ in 0..3 {
        tag(&mut station);
    }
    assert_eq!(status(&mut station), "\x01\x021310009\x03\x04\r\n~~");
    station.reload();
    assert_eq!(status(&mut station), "\x01\x020210009\x03\x04\r\n~~");
}

#[test]
fn a_recall_does_all_or_none() {
    let save = ["XO;03,0", "D0300,0300,0300", "PC002;0000,0000,1,1,A,00,B=2", "RC001;X", "XP"];
    let mut station = after(&save);
    let label = station.label().clone();
    let mut work = [7; WORK];
    let fault = station.command(&command("XQ;03,0,L"), 0, &mut [0; ANSWER], &mut work).unwrap_err();
    assert_eq!(fault, Fault { number: 13, form: 3, place: 49, next: 12 });
    assert_eq!(station.label(), &label);
    let form = station.store().get(3).unwrap();
    assert_eq!(&work[..form.len()], form);
    assert!(work[form.len()..].iter().all(|&b| b == 7));

    send(&mut station, TEXT_1).unwrap();
    send(&mut station, "XQ;03,0,L").unwrap();
    assert_eq!(station.label().sizes.width, 300);
    send(&mut station, "XS;I,0001,0002C3000").unwrap();
    assert_eq!(tag(&mut station), "0001,0001,T01,0100,0050,X,T02,0000,0000,2");
}

#[test]
fn damaged_forms_are_refused_at_their_place() {
    let mut store = FormStore::packed();
    store.put(1, b"\x1bC\n\0noise").unwrap();
    store.put(2, b"\x1bC\n\0\x1bC").unwrap();
    store.put(3, &job(&["C", "RC017;X"])).unwrap();
    store.put(4, b"").unwrap();
    let mut station = station_with(store, 1);
    assert_eq!(fault_of(&mut station, "XQ;01,0,L"), "R,04,J,01,000004");
    assert_eq!(fault_of(&mut station, "XQ;02,0,L"), "R,05,J,02,000004");
    assert_eq!(fault_of(&mut station, "XQ;03,0,L"), "R,08,J,03,000007");
    send(&mut station, "XQ;04,0,L").unwrap();
}

#[test]
fn clear_keeps_formats_and_reset_does_not() {
    let format = format!("{TEXT_1},+0000000001=1");
    let mut station = after(&[&format, "LC;0000,0000,0000,0000,0,1", "C", "RC001;5"]);
    assert!(station.label().drawings.is_empty());
    send(&mut station, "WR").unwrap();
    assert_eq!(station.label(), &Label::new());
    assert_eq!(send(&mut station, "RC001;5").unwrap_err().number, 13);
}

#[test]
fn a_new_format_drops_text_and_links() {
    let linked = format!("{TEXT_1};01");
    let mut station = after(&[&linked, "RC;A", TEXT_1, "RC;B", "XS;I,0001,0002C3000"]);
    assert_eq!(tag(&mut station), "0001,0001");
    send(&mut station, "RC001;C").unwrap();
}

#[test]
fn linked_fields_change_all_or_none() {
    let one = format!("{TEXT_1};01");
    let two = "XB01;0000,0000,3,3,00,00,00,00,00,0,0000;02,01";
    let mut station = after(&[&one, two, "RC;A,B"]);
    assert_eq!(send(&mut station, "RC;Z,b").unwrap_err().number, 16);
    send(&mut station, "XS;I,0001,0002C3000").unwrap();
    assert_eq!(tag(&mut station), "0001,0001,T01,0100,0050,A,B01,0000,0000,BAL");
    send(&mut station, "RC;").unwrap();
    send(&mut station, "XS;I,0001,0002C3000").unwrap();
    assert_eq!(tag(&mut station), "0001,0001");
}

#[test]
fn the_longest_line() {
    let mut station = new_station();
    for field in 1..=16 {
        let text = "9".repeat(40);
        send(&mut station, &format!("PC{field:03};0539,0499,9,9,Z,33,A,M0={text}")).unwrap();
    }
    for field in 1..=8 {
        let text = "9".repeat(40);
        send(&mut station, &format!("XB{field:02};0539,0499,3,3,99,99,99,99,99,3,9999={text}")).unwrap();
    }
    send(&mut station, "XS;I,9999,0002C3000").unwrap();
    assert_eq!(station.print(&mut [0; WORK]), Ok(1354));
}

#[test]
fn rules_of_the_fields() {
    let bodies = [
        "PC001;0000,0000,1,1,A,00,B,+0000000001=0A9>09",
        "XB01;0000,0000,3,1,00,00,00,00,00,0,0000,+0000000001=0A9>09",
        "XB02;0000,0000,9,1,00,00,00,00,00,0,0000,+0000000001=0A9>09",
        "XS;I,0002,0002C3000",
    ];
    let text = outputs(&bodies);
    let second = "0002,0002,T01,0000,0000,0A9>10,B01,0000,0000,0A9>10,B02,0000,0000,1A0>00";
    assert_eq!(text.lines().nth(1), Some(second));
}

// The picture.

fn picture(bodies: &[&str]) -> Vec<u8> {
    let mut dots = vec![0xFF; BYTES];
    after(bodies).draw(&mut dots).unwrap();
    dots
}

fn black(dots: &[u8]) -> usize {
    dots.iter().map(|byte| byte.count_ones() as usize).sum()
}

fn is_black(dots: &[u8], x: usize, y: usize) -> bool {
    dots[y * ROW_BYTES + x / 8] & (0x80 >> (x % 8)) != 0
}

#[test]
fn lines_and_points() {
    assert_eq!(black(&picture(&[])), 0);
    let dots = picture(&["LC;0010,0020,0010,0020,0,3"]);
    assert_eq!(black(&dots), 3);
    assert!(is_black(&dots, 8, 16) && is_black(&dots, 8, 18));
    let dots = picture(&["LC;0020,0020,0010,0020,0,2"]);
    assert_eq!(black(&dots), 9 * 2);
    assert!(is_black(&dots, 8, 16) && is_black(&dots, 16, 17));
    let dots = picture(&["LC;0010,0030,0010,0020,0,2"]);
    assert_eq!(black(&dots), 9 * 2);
    assert!(is_black(&dots, 8, 16) && is_black(&dots, 9, 24));
    // Two tenths on one dot are still an upright line.
    let dots = picture(&["LC;0010,0000,0010,0001,0,3"]);
    assert_eq!(black(&dots), 3);
    assert!(is_black(&dots, 10, 0));
}

#[test]
fn rectangles_and_areas() {
    let dots = picture(&["LC;0010,0010,0030,0030,1,2"]);
    assert_eq!(black(&dots), 17 * 17 - 13 * 13);
    let dots = picture(&["LC;0010,0010,0030,0030,1,9"]);
    assert_eq!(black(&dots), 17 * 17);
    let dots = picture(&["LC;0010,0010,0030,0030,1,9", "XR;0020,0020,0000,0000,A"]);
    assert_eq!(black(&dots), 17 * 17 - 9 * 9);
    let dots = picture(&["XR;0020,0020,0000,0000,A", "LC;0010,0010,0030,0030,1,9"]);
    assert_eq!(black(&dots), 17 * 17);
    let dots = picture(&["XR;0020,0020,0010,0010,B", "XR;0020,0020,0020,0020,B"]);
    assert_eq!(black(&dots), 9 * 9 - 1);
}

#[test]
fn pictures_are_cut_at_the_sizes() {
    let dots = picture(&["XR;0000,0000,0539,0499,B"]);
    assert_eq!(black(&dots), 432 * 400);
    let dots = picture(&["D0520,0101,0081", "XR;0000,0000,0539,0499,B"]);
    assert_eq!(black(&dots), 80 * 64);
    let dots = picture(&["XR;0000,0000,0539,0499,B", "D0520,0102,0082"]);
    assert_eq!(black(&dots), 81 * 65);
    let dots = picture(&["LC;0539,0499,0539,0499,0,9"]);
    assert_eq!(black(&dots), 1);
    let dots = picture(&["LC;0539,0000,0539,0499,0,9"]);
    assert_eq!(black(&dots), 400);
    let dots = picture(&["D0520,0100,0080", "LC;0200,0200,0300,0300,1,9"]);
    assert_eq!(black(&dots), 0);
}
