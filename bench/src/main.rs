//! The time of the archive's functions beside the Rust that they port, and beside SQLite where it is installed. README.md says how.

mod clock;
mod inputs;
mod programs;
#[allow(dead_code)]
#[path = "../../oracle/src/generator/random.rs"]
mod random;
mod rows;
#[allow(dead_code)]
#[path = "../../oracle/src/shims.rs"]
mod shims;
#[cfg(sqlite)]
mod sqlite;
mod table;

// The Rust's file names these at its crate's root.
use shims::{numeric, types, types::ValueRef, LimboError, Result};

/// The Rust as it is.
#[allow(dead_code)]
mod original {
    use crate::shims::{chrono, std_with_clock as std};
    include!(env!("RUST_DATETIME"));
}

use dangsoviey::raw::{self, Reply};
use rows::Row;
use std::hint::black_box;
use std::path::Path;
use std::process::ExitCode;
use types::Value;

const USAGE: &str = "\
bench count               the calls that valgrind counts, see bench/run
bench table COUNTS        the table; COUNTS is the folder of callgrind's files
bench programs A B LINES  lines per second of two line programs, given with their words
bench repeat ROW          a row's calls of the archive over and over, for a profiler";

/// Calls of each side in a repetition, each with other arguments.
const CALLS: usize = 100_000;
/// Of each row: one call of each argument by each side.
const REPETITIONS: usize = 11;
/// Calls of each side that valgrind counts.
const COUNTED: usize = 2_000;

const BUFFER: usize = 64;

fn main() -> ExitCode {
    let arguments: Vec<String> = std::env::args().skip(1).collect();
    let words: Vec<&str> = arguments.iter().map(String::as_str).collect();
    match words[..] {
        ["count"] => count(),
        ["table", counts] => return measure(Path::new(counts)),
        ["programs", first, second, lines] => programs::run([first, second], lines),
        ["repeat", number] => repeat(number),
        _ => {
            eprintln!("{USAGE}");
            return ExitCode::FAILURE;
        }
    }
    ExitCode::SUCCESS
}

// The three loops that are measured. Valgrind knows them by their names. An answer is looked at where it lies, not moved.

#[no_mangle]
#[inline(never)]
fn measured_rust(call: &dyn Fn(usize) -> Value, count: usize) {
    for i in 0..count {
        black_box(&call(i));
    }
}

#[no_mangle]
#[inline(never)]
fn measured_here(call: &dyn Fn(usize, &mut [u8]) -> Reply, count: usize) {
    let mut out = [0; BUFFER];
    for i in 0..count {
        black_box(&call(i, &mut out));
        black_box(&mut out);
    }
}

#[no_mangle]
#[inline(never)]
fn measured_sqlite(call: &dyn Fn(usize) -> bool, count: usize) {
    for i in 0..count {
        black_box(call(i));
    }
}

/// The order of the files that valgrind writes: row by row, and in each the Rust, the archive, SQLite.
fn count() {
    let inputs = inputs::inputs(COUNTED);
    for row in rows::rows(&inputs) {
        measured_rust(&row.rust, COUNTED);
        measured_here(&row.here, COUNTED);
        if let Some(sqlite) = &row.sqlite {
            measured_sqlite(sqlite, COUNTED);
        }
    }
}

fn repeat(number: &str) {
    let inputs = inputs::inputs(CALLS);
    let rows = rows::rows(&inputs);
    let row = rows.iter().find(|row| row.number == number).expect("a row's number, as i");
    for _ in 0..10 * REPETITIONS {
        measured_here(&row.here, CALLS);
    }
}

fn measure(counts: &Path) -> ExitCode {
    let inputs = inputs::inputs(CALLS);
    let rows = rows::rows(&inputs);
    for row in &rows {
        if let Some(why) = differs(row) {
            println!("({}): {why}", row.number);
            return ExitCode::FAILURE;
        }
    }
    let mut counts = table::Counts::new(counts, COUNTED);
    let mut lines = Vec::new();
    for row in &rows {
        let mut times: [Vec<f64>; 3] = Default::default();
        for _ in 0..REPETITIONS {
            times[0].push(nanoseconds(|| measured_rust(&row.rust, CALLS)));
            times[1].push(nanoseconds(|| measured_here(&row.here, CALLS)));
            if let Some(sqlite) = &row.sqlite {
                times[2].push(nanoseconds(|| measured_sqlite(sqlite, CALLS)));
            }
        }
        let counts = counts.row(row.sqlite.is_some());
        lines.push(table::Line { row, times, counts });
    }
    table::print(&lines);
    if let Some(alone) = rows::statement_alone(&inputs) {
        let run = |_| nanoseconds(|| measured_sqlite(&alone, CALLS));
        let times: Vec<f64> = (0..REPETITIONS).map(run).collect();
        println!();
        println!(
            "Of SQLite's time {:.0} ns are those of a statement with no function, `SELECT ?1`.",
            table::median(&times)
        );
    }
    ExitCode::SUCCESS
}

/// Of one call, in processor time.
fn nanoseconds(run: impl FnOnce()) -> f64 {
    let start = clock::thread();
    run();
    (clock::thread() - start) / CALLS as f64
}

/// The first answer that is not the Rust's.
fn differs(row: &Row) -> Option<String> {
    let mut out = [0; BUFFER];
    for i in 0..CALLS {
        let rust = match (row.rust)(i) {
            Value::Null => "null".into(),
            Value::Text(text) => text,
            Value::Numeric(numeric::Numeric::Integer(number)) => number.to_string(),
            Value::Numeric(numeric::Numeric::Float(number)) => f64::from(number).to_string(),
        };
        let reply = (row.here)(i, &mut out);
        let here = match reply.kind {
            raw::TEXT => String::from_utf8_lossy(&out[..reply.length]).into_owned(),
            // The Rust has seconds where the archive has milliseconds.
            raw::WHOLE => (reply.integer as f64 / 1000.0).to_string(),
            raw::FLOAT => reply.real.to_string(),
            _ => format!("refused {}", reply.refusal),
        };
        if rust != here {
            return Some(format!("argument {i}: the Rust answers {rust}, the archive {here}"));
        }
        if let Some(sqlite) = &row.sqlite {
            if !sqlite(i) {
                return Some(format!("argument {i}: SQLite answers null"));
            }
        }
    }
    None
}
