//! `oracle generate`: lines at every edge of 01, the same for the same seed.
//! Most give a real answer; the edges stand among them, not alone.

pub mod edges;
mod format;
mod modifiers;
mod numbers;
mod random;
mod stamps;
mod values;

use format::format;
pub use format::LETTERS;
use modifiers::{across, chain, from_before, limited_units, modifier, small_number};
use numbers::{julian_day, spaced_number, tie, unix_seconds};
pub use random::Random;
use stamps::Stamp;
use std::io::{self, Write};
use values::{plain_value, time_value, word};

/// A theme adds one line, without its newline.
type Theme = fn(&mut Random, &mut Vec<u8>);

/// Name, share in a mixed run, and the theme.
const THEMES: [(&str, usize, Theme); 6] = [
    ("value", 25, value_line),
    ("modifiers", 27, modifiers_line),
    ("strftime", 15, strftime_line),
    ("timediff", 14, timediff_line),
    ("numbers", 13, numbers_line),
    ("damage", 6, damage_line),
];

/// Good first lines, one for a seed.
const SETTINGS: [&str; 10] = [
    "1700000000123\t3600",
    "1700000000000\t0",
    "0\t-18000",
    "951827696789\t19800",
    "1709251199999\t-12600",
    "253402300799999\t0",
    "253402300799999\t-86399",
    "1\t86399",
    "4102444800000\t-1",
    "1735689599500\t50400",
];

/// The first line and `count` more; false if there is no such theme.
pub fn run(count: u64, seed: u64, theme: Option<&str>, mut output: impl Write) -> io::Result<bool> {
    let shares: Vec<usize> = THEMES
        .iter()
        .map(|&(name, share, _)| match theme {
            None => share,
            Some(asked) => usize::from(name == asked),
        })
        .collect();
    if shares.iter().sum::<usize>() == 0 {
        return Ok(false);
    }
    let mut random = Random::new(seed);
    writeln!(output, "{}", random.pick(&SETTINGS))?;
    lines(count, &mut random, &shares, &mut output)?;
    output.flush()?;
    Ok(true)
}

/// The same of all themes, for one of many runs: the first runs have the known
/// settings, the others any.
pub fn numbered(count: u64, seed: u64, run: u64) -> Vec<u8> {
    let mut random = Random::new(Random::new(seed).next().wrapping_add(run));
    let mut output = Vec::new();
    match SETTINGS.get(run as usize) {
        Some(setting) => writeln!(output, "{setting}").unwrap(),
        None => {
            let clock = random.between(0, 253402300799999);
            let offset = random.between(-86399, 86399);
            writeln!(output, "{clock}\t{offset}").unwrap();
        }
    }
    lines(count, &mut random, &THEMES.map(|(_, share, _)| share), &mut output).unwrap();
    output
}

fn lines(count: u64, r: &mut Random, shares: &[usize], output: &mut impl Write) -> io::Result<()> {
    let mut line = Vec::new();
    for _ in 0..count {
        line.clear();
        let (_, _, theme) = THEMES[r.weighed(shares)];
        theme(r, &mut line);
        line.push(b'\n');
        output.write_all(&line)?;
    }
    Ok(())
}

/// A line of any theme but damage, without its newline.
pub fn call(r: &mut Random) -> Vec<u8> {
    let shares: Vec<usize> = THEMES.iter().map(|t| if t.0 == "damage" { 0 } else { t.1 }).collect();
    let (_, _, theme) = THEMES[r.weighed(&shares)];
    let mut line = Vec::new();
    theme(r, &mut line);
    line
}

/// A number that is mostly a Julian day, or seconds that `unixepoch` takes.
pub fn number(r: &mut Random) -> f64 {
    let mut text = Vec::new();
    if r.one_in(2) {
        julian_day(r, &mut text);
    } else {
        unix_seconds(r, &mut text);
    }
    String::from_utf8(text).unwrap().parse().unwrap()
}

/// One time value, read by any function; now and then a modifier.
fn value_line(r: &mut Random, out: &mut Vec<u8>) {
    head(r, out);
    time_value(r, out);
    if r.one_in(4) {
        out.push(b'\t');
        match r.below(6) {
            0 => word(r, &["subsec"], out),
            1 => out.extend(b"+0 days"),
            2 => word(r, &["utc", "localtime"], out),
            3 => word(r, &["floor"], out),
            _ => modifier(r, out),
        }
    }
}

/// A plain time value and a chain of modifiers.
fn modifiers_line(r: &mut Random, out: &mut Vec<u8>) {
    head(r, out);
    match r.below(36) {
        0 => return from_before(r, out),
        1..=6 => time_value(r, out),
        _ => plain_value(r, out),
    }
    for _ in 0..chain(r) {
        out.push(b'\t');
        modifier(r, out);
    }
    if r.one_in(50) {
        // Refused by 5, unless something before it was refused by 1.
        out.extend(b"\t1e99 days");
    }
}

fn strftime_line(r: &mut Random, out: &mut Vec<u8>) {
    out.extend(b"strftime\t");
    format(r, out);
    out.push(b'\t');
    if r.one_in(5) {
        time_value(r, out);
    } else {
        plain_value(r, out);
    }
    if r.one_in(3) {
        out.push(b'\t');
        modifier(r, out);
    }
    if r.one_in(6) {
        out.push(b'\t');
        word(r, &["subsec"], out);
    }
}

/// Two time values, the second often a step away from the first.
fn timediff_line(r: &mut Random, out: &mut Vec<u8>) {
    out.extend(b"timediff\t");
    if r.one_in(12) {
        time_value(r, out);
        out.push(b'\t');
        time_value(r, out);
        return;
    }
    let first = Stamp::any(r);
    let second = first.near(r);
    let (first, second) = if r.one_in(2) { (first, second) } else { (second, first) };
    first.write(r, out);
    out.push(b'\t');
    second.write(r, out);
}

/// Numbers at every limit: as time value, before a unit, after `weekday `.
fn numbers_line(r: &mut Random, out: &mut Vec<u8>) {
    head(r, out);
    match r.weighed(&[20, 20, 15, 5, 5, 15, 10, 10]) {
        0 => julian_day(r, out),
        1 => {
            unix_seconds(r, out);
            out.push(b'\t');
            word(r, &["unixepoch", "auto"], out);
        }
        2 => {
            plain_value(r, out);
            out.push(b'\t');
            limited_units(r, out);
        }
        3 => across(r, out),
        4 => {
            plain_value(r, out);
            out.push(b'\t');
            spaced_number(r, out);
            write!(out, " {}", r.pick(&["days", "hours", "seconds", "months"])).unwrap();
        }
        5 => {
            if r.one_in(2) {
                julian_day(r, out);
            } else {
                spaced_number(r, out);
            }
            out.push(b'\t');
            if r.one_in(8) {
                // Then the next one is not the first.
                modifier(r, out);
                out.push(b'\t');
            }
            word(r, &["auto", "unixepoch", "julianday", "subsec"], out);
        }
        6 => {
            plain_value(r, out);
            out.extend(b"\tweekday ");
            if r.one_in(3) {
                spaced_number(r, out);
            } else {
                small_number(r, out);
            }
        }
        _ => tie(r, out),
    }
    if r.one_in(8) {
        out.extend(b"\t-1 second");
    }
    if r.one_in(8) {
        out.extend(b"\tsubsec");
    }
}

/// A line of another theme with a fault in it, or a line that is none.
fn damage_line(r: &mut Random, out: &mut Vec<u8>) {
    let good = [value_line, modifiers_line, strftime_line, timediff_line, numbers_line];
    let theme: Theme = r.pick(&good);
    theme(r, out);
    match r.weighed(&[25, 15, 15, 10, 5, 5, 5, 5, 5, 5, 5]) {
        0 => {
            let at = r.below(out.len());
            out[at] = plain_byte(r);
        }
        1 => {
            let at = r.below(out.len());
            out.remove(at);
        }
        2 => {
            let at = r.below(out.len());
            out.insert(at, out[at]);
        }
        3 => {
            let at = r.below(out.len() + 1);
            out.insert(at, plain_byte(r));
        }
        4 => {
            // Bytes above 127: whole letters, three kinds of blank, and no UTF-8.
            let high: [&[u8]; 6] = [
                "é".as_bytes(),
                "\u{a0}".as_bytes(),
                "\u{85}".as_bytes(),
                "\u{3000}".as_bytes(),
                b"\x80",
                b"\xff",
            ];
            let at = r.below(out.len() + 1);
            out.splice(at..at, r.pick(&high).iter().copied());
        }
        5 => {
            let at = r.below(out.len() + 1);
            out.insert(at, 0);
        }
        6 => {
            // Another function, known or not, for the same fields.
            let tab = out.iter().position(|&b| b == b'\t').unwrap();
            let names = [
                "date",
                "time",
                "datetime",
                "julianday",
                "unixepoch",
                "strftime",
                "timediff",
                "",
                "DATE",
                "dates",
                "current_time",
                "Date",
                "now",
                " date",
                "date ",
            ];
            out.splice(..tab, r.pick(&names).bytes());
        }
        7 => {
            // Fields missing at the end.
            let end = r.below(out.len());
            out.truncate(end);
        }
        8 => out.push(b'\t'),
        9 => {
            out.push(b'\t');
            modifier(r, out);
        }
        _ => {
            // A field near its limit of length.
            let at = out.iter().rposition(|&b| b == b'\t').unwrap() + 1;
            let size = r.pick(&[253, 254, 255, 256, 257, 1023, 1024, 1025, 8192]);
            let byte = r.pick(b"  0.x%");
            while out.len() - at < size {
                out.push(byte);
            }
        }
    }
    // A newline would end the line here.
    out.iter_mut().filter(|b| **b == b'\n').for_each(|b| *b = b'\r');
}

fn plain_byte(r: &mut Random) -> u8 {
    match r.below(3) {
        0 => r.pick(b"0123456789+-:. TZe%\t"),
        1 => r.pick(&[9, 11, 12, 13, 28, 29, 30, 31, 32, 127]),
        _ => r.between(1, 127) as u8,
    }
}

/// A function and the tab after it, for strftime the format too.
fn head(r: &mut Random, out: &mut Vec<u8>) {
    let names = ["date", "time", "datetime", "datetime", "julianday", "unixepoch"];
    if r.one_in(3) {
        out.extend(b"strftime\t%Y-%m-%d %H:%M:%f %j %w %s\t");
    } else {
        out.extend(r.pick(&names).bytes());
        out.push(b'\t');
    }
}
