//! The Rust's date and time functions, built from its own file, to hold the
//! port against. README.md has the commands.

mod calls;
mod compare;
mod days;
mod departures;
mod generator;
mod limits;
mod lines;
mod pairs;
mod readings;
mod shifts;
mod shims;
mod sqlite;
mod stored;
mod values;

// The Rust's file names these at its crate's root.
use shims::{numeric, types, types::ValueRef, LimboError, Result};

/// The Rust as it is.
mod raw {
    use crate::shims::{chrono, std_with_clock as std};
    include!(env!("RUST_DATETIME"));
}

/// The Rust with the departures of 01, which build.rs puts in.
mod ruled {
    use crate::shims::{chrono, std_with_clock as std};
    include!(concat!(env!("OUT_DIR"), "/ruled.rs"));
}

use lines::Reading;
use std::io::{self, BufReader, BufWriter};
use std::process::ExitCode;

const USAGE: &str = "\
oracle raw < LINES                   the Rust as it is
oracle ruled [-DEPARTURE].. < LINES  01; a minus switches a departure off: round,
                                     range, renew, decimal, early
oracle departures < LINES            where the two differ, by name
oracle compare N SEED PROGRAM        N lines through the program and the Rust
oracle generate N SEED [THEME]       lines of one theme or of all: value, modifiers,
                                     strftime, timediff, numbers, damage
oracle days                          digests of the calendar
oracle readings LIST                 calls with the documents' answers
oracle sqlite N SEED                 N lines through the system's sqlite3
oracle stored READINGS LINES         the stored input of the program dates
oracle values LIST                   time values: the list's, and generated ones
oracle values < VALUES               what julianday and unixepoch give for each
oracle shifts LIST                   calls of julianday with modifiers: the list's, and
                                     generated ones
oracle limits N SEED                 calls at every limit, and N generated ones
oracle limits < CALLS                what each gives back
oracle pairs list                    pairs A, B of demand 3
oracle pairs < PAIRS                 timediff's text of each, put back, and A alone";

const BUFFER: usize = 1 << 16;

fn main() -> ExitCode {
    let arguments: Vec<String> = std::env::args().skip(1).collect();
    let words: Vec<&str> = arguments.iter().map(String::as_str).collect();
    let input = BufReader::with_capacity(BUFFER, io::stdin());
    let output = BufWriter::with_capacity(BUFFER, io::stdout());
    let good = match words[..] {
        ["raw"] => lines::run(Reading::Raw, input, output).map(|()| true),
        ["ruled", ref off @ ..] => match without(off) {
            Some(on) => lines::run(Reading::Ruled(on), input, output).map(|()| true),
            None => return usage(),
        },
        ["departures"] => departures::run(input),
        ["compare", count, seed, program] => {
            let (Ok(count), Ok(seed)) = (count.parse(), seed.parse()) else {
                return usage();
            };
            compare::run(count, seed, program)
        }
        ["generate", count, seed, ref theme @ ..] if theme.len() < 2 => {
            let (Ok(count), Ok(seed)) = (count.parse(), seed.parse()) else {
                return usage();
            };
            match generator::run(count, seed, theme.first().copied(), output) {
                Ok(false) => return usage(),
                written => written,
            }
        }
        ["days"] => days::run(output).map(|()| true),
        ["readings", list] => Ok(readings::run(list)),
        ["sqlite", count, seed] => {
            let (Ok(count), Ok(seed)) = (count.parse(), seed.parse()) else {
                return usage();
            };
            sqlite::run(count, seed)
        }
        ["stored", readings, list] => stored::run(readings, list, output).map(|()| true),
        ["values", list] => values::list(list, output).map(|()| true),
        ["shifts", list] => shifts::list(list, output).map(|()| true),
        ["values"] => values::answers(input, output).map(|()| true),
        ["limits", count, seed] => {
            let (Ok(count), Ok(seed)) = (count.parse(), seed.parse()) else {
                return usage();
            };
            calls::list(count, seed, output).map(|()| true)
        }
        ["limits"] => calls::answers(input, output).map(|()| true),
        ["pairs", "list"] => pairs::list(output).map(|()| true),
        ["pairs"] => pairs::answers(input, output).map(|()| true),
        _ => return usage(),
    };
    match good {
        Ok(true) => ExitCode::SUCCESS,
        Ok(false) => ExitCode::FAILURE,
        // Whoever reads the output may have seen enough.
        Err(e) if e.kind() == io::ErrorKind::BrokenPipe => ExitCode::SUCCESS,
        Err(e) => {
            eprintln!("oracle: {e}");
            ExitCode::FAILURE
        }
    }
}

/// All departures but those named, each with a minus before it.
fn without(off: &[&str]) -> Option<limits::Departures> {
    let mut on = limits::ALL;
    for word in off {
        let name = word.strip_prefix('-')?;
        let bit = limits::NAMES.iter().position(|n| *n == name)?;
        on &= !(1 << bit);
    }
    Some(on)
}

fn usage() -> ExitCode {
    eprintln!("{USAGE}");
    ExitCode::from(2)
}
