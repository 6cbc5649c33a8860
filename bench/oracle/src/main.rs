//! A plain tag station: reads a job from standard input and writes every tag and refusal.
//!
//! `oracle [--count] [--picture FILE] < job`
//! `--count` writes only how many tags there are; `--picture FILE` also writes the picture of
//! the final label, as a PBM of 432 by 400 dots.

mod fault;
mod label;
mod picture;
mod reader;
mod roll;
mod station;
mod store;
#[cfg(test)]
mod tests;
mod text;

use roll::Roll;
use station::Station;
use std::io::{self, BufWriter, Read, Write};
use std::process::ExitCode;
use store::FormStore;

const ROLL: u32 = 500;

/// Does a job on the station, writing every tag and every refusal; answers the number of tags.
pub fn run(station: &mut Station, job: &[u8], out: &mut impl Write) -> io::Result<u64> {
    let mut answer = [0; station::ANSWER];
    let mut work = [0; station::WORK];
    let mut place = 0;
    loop {
        match station.command(job, place, &mut answer, &mut work) {
            Ok(next) => place = next,
            Err(fault) => {
                if fault.number != 3 {
                    writeln!(out, "{fault}")?;
                }
                if fault.number <= 3 {
                    return Ok(station.printer().taken());
                }
                place = fault.next;
            }
        }
        while station.owed() > 0 {
            match station.print(&mut work) {
                Ok(length) => out.write_all(&work[..length])?,
                Err(_) => station.reload(),
            }
        }
    }
}

struct Options {
    count: bool,
    picture: Option<String>,
}

fn options() -> Option<Options> {
    let mut options = Options { count: false, picture: None };
    let mut words = std::env::args().skip(1);
    while let Some(word) = words.next() {
        match word.as_str() {
            "--count" => options.count = true,
            "--picture" => options.picture = Some(words.next()?),
            _ => return None,
        }
    }
    Some(options)
}

fn write_picture(station: &Station, name: &str) -> io::Result<()> {
    let mut dots = vec![0; picture::BYTES];
    station.draw(&mut dots).expect("the buffer is long enough");
    let mut file = std::fs::File::create(name)?;
    write!(file, "P4\n{} {}\n", picture::COLUMNS, picture::ROWS)?;
    file.write_all(&dots)
}

fn serve(options: &Options) -> io::Result<()> {
    let mut job = Vec::new();
    io::stdin().lock().read_to_end(&mut job)?;
    let roll = Roll::new(ROLL).expect("a roll of this size can be made");
    let mut station = Station::new(FormStore::packed(), roll);
    let mut out = BufWriter::new(io::stdout().lock());
    if options.count {
        let tags = run(&mut station, &job, &mut io::sink())?;
        writeln!(out, "{tags}")?;
    } else {
        run(&mut station, &job, &mut out)?;
    }
    out.flush()?;
    match &options.picture {
        Some(name) => write_picture(&station, name),
        None => Ok(()),
    }
}

fn main() -> ExitCode {
    let Some(options) = options() else {
        eprintln!("usage: oracle [--count] [--picture FILE] < job");
        return ExitCode::from(2);
    };
    match serve(&options) {
        Ok(()) => ExitCode::SUCCESS,
        Err(error) => {
            eprintln!("oracle: {error}");
            ExitCode::FAILURE
        }
    }
}
