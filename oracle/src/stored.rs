//! `oracle stored`: the input of the port's program `dates` that the repository
//! keeps, made from the lists, from crosses of the edges, and from generated
//! lines. `oracle ruled` gives what the program must write for it.

use crate::generator::{self, edges};
use crate::readings;
use std::collections::HashSet;
use std::fs;
use std::io::{self, Write};

const SETTING: &[u8] = b"1700000000123\t3600";

/// How many generated lines of each theme, with one seed.
const THEMES: [(&str, u64); 6] = [
    ("value", 4500),
    ("modifiers", 6000),
    ("strftime", 3000),
    ("timediff", 2500),
    ("numbers", 3000),
    ("damage", 1500),
];
const SEED: u64 = 11;

/// Of the generated lines with more bytes only so many are taken: their answers
/// are long too, and show no more than the first few.
const LONG: usize = 300;
const LONG_ONES: usize = 60;

/// The last line, which has no newline.
const LAST: &[u8] = b"datetime\tnow\tlocaltime\t+1 day\tsubsec";

/// The setting and the lines, each once; calls of `readings.txt`, then lines of
/// `lines.txt`, the crosses, and the generated ones.
pub fn run(readings: &str, lines: &str, mut output: impl Write) -> io::Result<()> {
    let mut all = readings::lines(readings);
    let list = fs::read_to_string(lines)?;
    all.extend(list.lines().filter(|l| !l.starts_with('#')).map(readings::bytes));
    all.extend(crosses());
    all.extend(generated()?);
    let mut seen = HashSet::new();
    output.write_all(SETTING)?;
    output.write_all(b"\n")?;
    for line in all {
        if seen.insert(line.clone()) && line != LAST {
            output.write_all(&line)?;
            output.write_all(b"\n")?;
        }
    }
    output.write_all(LAST)?;
    output.flush()
}

const DATES: [&str; 18] = [
    "-4713-11-24 12:00",
    "-4713-12-31 23:59:59.999",
    "-0400-02-29",
    "-0013-06-15 07:08:09",
    "-0001-12-31 24:00",
    "0000-01-01",
    "0000-02-29 12:00:00.001",
    "1582-10-15",
    "1969-12-31 23:59:59.999",
    "1970-01-01 00:00:00.5",
    "1999-12-31 11:59:59.0625",
    "2008-12-29 12:00",
    "2021-01-03 01:02:03.004",
    "2023-02-31 13:14:15",
    "2024-02-29 00:00",
    "2024-01-06 24:00",
    "2024-12-31 23:59:59.999",
    "9999-12-31 23:59:59.999",
];

/// Each letter on each date; each function on each edge; each odd modifier;
/// each two dates of timediff.
fn crosses() -> Vec<Vec<u8>> {
    let mut lines = Vec::new();
    for letter in generator::LETTERS.iter().map(|&b| b as char) {
        for date in DATES {
            lines.push(format!("strftime\t%{letter}\t{date}"));
        }
        lines.push(format!("strftime\t%{letter}\t2024-02-29 12:34:56.0625\tsubsec"));
    }
    for value in edges::TIME_VALUES {
        for head in ["date", "time", "datetime", "julianday", "unixepoch", "strftime\t%F %T %f"] {
            lines.push(format!("{head}\t{value}"));
        }
        lines.push(format!("timediff\t{value}\tnow"));
        lines.push(format!("timediff\t2000-02-29\t{value}"));
    }
    for modifier in edges::MODIFIERS {
        lines.push(format!("datetime\t2024-01-31 12:34:56.789\t{modifier}\tsubsec"));
    }
    for a in DATES {
        for b in DATES {
            lines.push(format!("timediff\t{a}\t{b}"));
        }
    }
    lines.into_iter().map(String::into_bytes).collect()
}

fn generated() -> io::Result<Vec<Vec<u8>>> {
    let mut lines = Vec::new();
    let mut long = 0;
    for (theme, count) in THEMES {
        let mut text = Vec::new();
        generator::run(count, SEED, Some(theme), &mut text)?;
        let text = text.strip_suffix(b"\n").unwrap_or(&text);
        for line in text.split(|&b| b == b'\n').skip(1) {
            long += usize::from(line.len() > LONG);
            if line.len() <= LONG || long <= LONG_ONES {
                lines.push(line.to_vec());
            }
        }
    }
    Ok(lines)
}
