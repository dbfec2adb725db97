//! `oracle values`: the input of the port's program `values`, and what that
//! must write.

use crate::limits;
use crate::lines::{self, Reading};
use crate::{generator, readings};
use std::collections::HashSet;
use std::fs;
use std::io::{self, BufRead, Write};

pub const SETTING: &[u8] = b"1700000000123\t3600";

/// From how many generated lines of each theme the time values are taken.
const THEMES: [(&str, u64); 3] = [("value", 3000), ("numbers", 2000), ("damage", 2000)];
const SEED: u64 = 4;

/// The setting, then one time value a line: those of a list, which is written
/// as lists/values.txt says, and those of generated lines. None stands twice.
pub fn list(path: &str, mut output: impl Write) -> io::Result<()> {
    let list = fs::read_to_string(path)?;
    let listed = list.lines().filter(|l| !l.starts_with('#')).map(readings::bytes);
    let mut seen = HashSet::new();
    output.write_all(SETTING)?;
    output.write_all(b"\n")?;
    for value in listed.chain(generated()?) {
        if seen.insert(value.clone()) {
            output.write_all(&value)?;
            output.write_all(b"\n")?;
        }
    }
    output.flush()
}

/// A value of more bytes shows no more than one of 256.
const LONGEST: usize = 300;

/// The first time value of each generated line, without those that hold a zero
/// byte: that is a fault of the whole line.
fn generated() -> io::Result<Vec<Vec<u8>>> {
    let mut values = Vec::new();
    for (theme, count) in THEMES {
        let mut text = Vec::new();
        generator::run(count, SEED, Some(theme), &mut text)?;
        for line in text.split(|&b| b == b'\n').skip(1) {
            let mut fields = line.split(|&b| b == b'\t');
            let place = usize::from(fields.next() == Some(b"strftime"));
            if let Some(value) = fields.nth(place).filter(|v| v.len() <= LONGEST && !v.contains(&0))
            {
                values.push(value.to_vec());
            }
        }
    }
    Ok(values)
}

/// For each value what julianday gives, a tab, and what unixepoch gives.
pub fn answers(input: impl BufRead, mut output: impl Write) -> io::Result<()> {
    let mut text = Vec::new();
    lines::each(input, |value| {
        text.clear();
        for (function, end) in [("julianday", b'\t'), ("unixepoch", b'\n')] {
            let line = [function.as_bytes(), value].join(&b'\t');
            lines::answer(Reading::Ruled(limits::ALL), &line, &mut text);
            text.push(end);
        }
        output.write_all(&text)
    })?;
    output.flush()
}
