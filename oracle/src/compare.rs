//! `oracle compare`: generated lines through a program of 01's format and
//! through the Rust. The program must answer every line as 01 has it, and every
//! difference from the Rust as it is must be one of the departures.
//!
//! The lines go in runs, each of its own setting and seed: so a run of any
//! number of lines needs the memory of a few.

use crate::departures::{shown, Differences};
use crate::limits;
use crate::lines::{self, Reading};
use crate::{generator, shims};
use std::io::{self, Read, Write};
use std::process::{Command, Stdio};
use std::sync::atomic::{AtomicBool, AtomicU64, Ordering};
use std::sync::Mutex;
use std::thread;

/// The lines of one run, some 1.7 MB: many blocks of any reader.
const RUN: u64 = 25_000;

/// How many wrong answers of a run are shown.
const SHOWN: usize = 5;

/// Prints the counts of the departures; false if one has no name, or if the
/// program answers a line otherwise.
pub fn run(count: u64, seed: u64, program: &str) -> io::Result<bool> {
    let next = AtomicU64::new(0);
    let stop = AtomicBool::new(false);
    let found = Mutex::new(Differences::default());
    let runs = count.div_ceil(RUN);
    let work = || -> io::Result<()> {
        let mut mine = Differences::default();
        while !stop.load(Ordering::Relaxed) {
            let number = next.fetch_add(1, Ordering::Relaxed);
            if number >= runs {
                break;
            }
            let size = RUN.min(count - number * RUN);
            match one(size, seed, number, program, &mut mine) {
                Ok(true) => {}
                wrong => {
                    stop.store(true, Ordering::Relaxed);
                    wrong?;
                }
            }
        }
        found.lock().unwrap().add(mine);
        Ok(())
    };
    thread::scope(|scope| {
        let threads = thread::available_parallelism().map_or(1, usize::from);
        let workers: Vec<_> = (0..threads).map(|_| scope.spawn(work)).collect();
        workers.into_iter().try_for_each(|worker| worker.join().unwrap())
    })?;
    let found = found.into_inner().unwrap();
    found.print_table();
    let good = !stop.into_inner();
    println!(
        "compare: {} lines in {runs} runs, {} as 01; from the Rust as it is {}",
        found.total,
        if good { "each answered" } else { "NOT all answered" },
        found.summary()
    );
    Ok(good && found.all_named())
}

/// One run: false if an answer of the program is another.
fn one(
    size: u64,
    seed: u64,
    number: u64,
    program: &str,
    found: &mut Differences,
) -> io::Result<bool> {
    let input = generator::numbered(size, seed, number);
    let output = answers(program, &input)?;
    let (first, rest) = split_line(&input);
    let (clock, offset) = lines::setting(first).expect("the generator's settings are good");
    shims::set(clock, offset);
    let mut wrong = 0;
    let (mut questions, mut answers) = (rest, &output[..]);
    while !questions.is_empty() {
        let (line, more_questions) = split_line(questions);
        let (answer, more_answers) = split_line(answers);
        let there = more_answers.len() < answers.len();
        (questions, answers) = (more_questions, more_answers);
        let mut ruled = Vec::new();
        lines::answer(Reading::Ruled(limits::ALL), line, &mut ruled);
        if there && answer == ruled {
            found.take(line, &ruled);
            continue;
        }
        wrong += 1;
        let [setting, line, answer, ruled] =
            [first, line, answer, &ruled].map(|part| shown(part, 1000));
        if !there {
            println!("compare: run {number}, {setting}: the answers end before {line}");
            break;
        }
        println!("compare: run {number}, {setting}: {line} => {answer}, 01 has {ruled}");
        if wrong == SHOWN {
            println!("compare: the rest of the run is not looked at");
            break;
        }
    }
    if wrong == 0 && !answers.is_empty() {
        println!("compare: run {number}: the program writes more than the answers");
        wrong = 1;
    }
    Ok(wrong == 0)
}

/// What the program writes.
fn answers(program: &str, input: &[u8]) -> io::Result<Vec<u8>> {
    let mut child = Command::new(program).stdin(Stdio::piped()).stdout(Stdio::piped()).spawn()?;
    let mut stdin = child.stdin.take().unwrap();
    let mut stdout = child.stdout.take().unwrap();
    let mut output = Vec::new();
    thread::scope(|scope| {
        // A program that ends early breaks the pipe, and its answers are too few.
        scope.spawn(move || stdin.write_all(input).ok());
        stdout.read_to_end(&mut output)
    })?;
    let status = child.wait()?;
    if !status.success() {
        return Err(io::Error::other(format!("{program} ends with {status}")));
    }
    Ok(output)
}

/// The first line without its newline, and what follows it.
fn split_line(text: &[u8]) -> (&[u8], &[u8]) {
    match text.iter().position(|&b| b == b'\n') {
        Some(end) => (&text[..end], &text[end + 1..]),
        None => (text, &[]),
    }
}
