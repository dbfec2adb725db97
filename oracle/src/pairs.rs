//! `oracle pairs`: the input of the port's program `test_pairs`, and what that must
//! write.

use crate::generator;
use crate::limits;
use crate::lines::{self, Reading};
use crate::values::SETTING;
use std::collections::HashSet;
use std::io::{self, BufRead, Write};

/// Each with each, and so with itself: month ends, leap days, steps of one
/// millisecond, the first and last instants of demand 3.
const INSTANTS: [&str; 44] = [
    "0000-01-01 00:00:00",
    "0000-01-01 00:00:00.001",
    "0000-01-31 23:59:59.999",
    "0000-02-28 23:59:59.999",
    "0000-02-29 00:00:00",
    "0000-02-29 12:00:00.001",
    "0000-03-01 00:00:00",
    "0000-12-31 23:59:59.999",
    "0001-01-01T00:00:00.0",
    "0100-02-28 12:00:00.5",
    "1582-10-15 00:00:00",
    "1899-12-31 23:59:59.999",
    "1900-02-28 23:59:59.999",
    "1900-03-01 00:00:00",
    "1969-12-31 23:59:59.999",
    "1970-01-01 00:00:00",
    "2000-02-29 00:00:00.000",
    "2000-12-31 12:34:56.78",
    "2023-01-29 00:00:00",
    "2023-01-30 12:00:00",
    "2023-01-31 00:00:00",
    "2023-01-31 23:59:59.999",
    "2023-02-28 00:00:00",
    "2023-02-28 23:59:59.999",
    "2023-03-01 00:00:00",
    "2023-03-01 00:00:00.001",
    "2023-03-31 00:00:00",
    "2023-04-30 06:07:08.009",
    "2023-05-31 06:07:08.010",
    "2023-12-31 23:59:59.999",
    "2024-01-01 00:00:00",
    "2024-01-30 23:59:59",
    "2024-01-31 06:07:08.009",
    "2024-02-28 23:59:59.999",
    "2024-02-29 00:00:00",
    "2024-02-29 23:59:59.999",
    "2024-03-01 00:00:00",
    "2024-03-31 06:07:08.008",
    "2024-12-31 12:00:00",
    "9999-01-31 00:00:00",
    "9999-02-28 23:59:59.999",
    "9999-12-01 00:00:00",
    "9999-12-31 23:59:59.998",
    "9999-12-31 23:59:59.999",
];

/// From how many generated lines of the theme timediff pairs are taken.
const COUNT: u64 = 8000;
const SEED: u64 = 8;

/// The setting, then A, a tab and B on each line, for which demand 3 holds: the
/// instants above, each with each, then generated ones. None stands twice.
pub fn list(mut output: impl Write) -> io::Result<()> {
    let mut seen = HashSet::new();
    output.write_all(SETTING)?;
    output.write_all(b"\n")?;
    let crossed = INSTANTS
        .iter()
        .flat_map(|a| INSTANTS.iter().map(move |b| format!("{a}\t{b}").into_bytes()));
    for pair in crossed.chain(generated()?) {
        if pair.split(|&b| b == b'\t').all(in_full) && seen.insert(pair.clone()) {
            output.write_all(&pair)?;
            output.write_all(b"\n")?;
        }
    }
    output.flush()
}

/// The two fields of each generated line.
fn generated() -> io::Result<Vec<Vec<u8>>> {
    let mut text = Vec::new();
    generator::run(COUNT, SEED, Some("timediff"), &mut text)?;
    let lines = text.split(|&b| b == b'\n').skip(1);
    let fields = lines.filter_map(|line| line.strip_prefix(b"timediff\t"));
    Ok(fields
        .filter(|f| f.iter().filter(|&&b| b == b'\t').count() == 1)
        .map(<[u8]>::to_vec)
        .collect())
}

/// Demand 3's A and B: "whole milliseconds, in years 0 to 9999, written in full,
/// existing day, hour 00 to 23, no zone".
fn in_full(value: &[u8]) -> bool {
    const SHAPE: &[u8; 19] = b"dddd-dd-ddsdd:dd:dd";
    let fits = |(&b, &s): (&u8, &u8)| match s {
        b'd' => b.is_ascii_digit(),
        b's' => b == b' ' || b == b'T',
        _ => b == s,
    };
    if value.len() < 19 || !value.iter().zip(SHAPE).all(fits) {
        return false;
    }
    let millis = match value[19..] {
        [] => true,
        [b'.', ref digits @ ..] => {
            (1..4).contains(&digits.len()) && digits.iter().all(u8::is_ascii_digit)
        }
        _ => false,
    };
    let number = |from: usize, to: usize| {
        value[from..to].iter().fold(0, |n, b| n * 10 + usize::from(b - b'0'))
    };
    let (year, month, day) = (number(0, 4), number(5, 7), number(8, 10));
    let leap = year % 4 == 0 && year % 100 != 0 || year % 400 == 0;
    let most = match month {
        2 => 28 + usize::from(leap),
        4 | 6 | 9 | 11 => 30,
        1..=12 => 31,
        _ => 0,
    };
    let time = number(11, 13) < 24 && number(14, 16) < 60 && number(17, 19) < 60;
    millis && (1..=most).contains(&day) && time
}

const EXACTLY: &[u8] = b"strftime\t%Y-%m-%d %H:%M:%f";

/// For each pair timediff's text, a tab, B with that text for its only
/// modifier, a tab, and A alone; both to the millisecond.
pub fn answers(input: impl BufRead, mut output: impl Write) -> io::Result<()> {
    let ask = |fields: &[&[u8]]| {
        let mut text = Vec::new();
        lines::answer(Reading::Ruled(limits::ALL), &fields.join(&b'\t'), &mut text);
        text
    };
    lines::each(input, |pair| {
        let mut fields = pair.split(|&b| b == b'\t');
        let (a, b) = (fields.next().unwrap_or(b""), fields.next().unwrap_or(b""));
        let span = ask(&[b"timediff", a, b]);
        let back = ask(&[EXACTLY, b, &span]);
        let alone = ask(&[EXACTLY, a]);
        output.write_all(&[span, back, alone].join(&b'\t'))?;
        output.write_all(b"\n")
    })?;
    output.flush()
}
