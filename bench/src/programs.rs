//! Lines per second of two programs that read the same lines.

use crate::clock;
use crate::table::{ends, median};
use std::fs::{self, File};
use std::process::{Command, Stdio};

const REPETITIONS: usize = 7;

/// Each program is given with its words, separated by spaces.
pub fn run(programs: [&str; 2], lines: &str) {
    let count = fs::read(lines).unwrap().iter().filter(|b| **b == b'\n').count() - 1;
    let mut times: [Vec<f64>; 2] = Default::default();
    for _ in 0..REPETITIONS {
        for (program, times) in programs.iter().zip(&mut times) {
            times.push(nanoseconds(program, lines));
        }
    }
    let [first, second] = &times;
    let ratios: Vec<f64> = second.iter().zip(first).map(|(b, a)| b / a).collect();
    let (low, high) = ends(&ratios);
    println!();
    println!("| | the Rust's line program | here | here/Rust, time | lowest to highest |");
    println!("|---|---|---|---|---|");
    println!(
        "| lines per second, of {count} | {:.0} | {:.0} | {:.2} | {low:.2} to {high:.2} |",
        count as f64 / median(first) * 1e9,
        count as f64 / median(second) * 1e9,
        median(&ratios),
    );
}

fn nanoseconds(program: &str, lines: &str) -> f64 {
    let mut words = program.split(' ');
    let mut command = Command::new(words.next().unwrap());
    command.args(words).stdin(File::open(lines).unwrap()).stdout(Stdio::null());
    let start = clock::children();
    assert!(command.status().unwrap().success(), "{program}");
    clock::children() - start
}
