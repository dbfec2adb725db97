//! `oracle shifts`: the input of the port's program `shifts`.

use crate::values::SETTING;
use crate::{generator, readings};
use std::collections::HashSet;
use std::io::{self, Write};

/// From how many generated lines of each theme the calls are taken.
const THEMES: [(&str, u64); 2] = [("modifiers", 7500), ("damage", 500)];
const SEED: u64 = 6;

/// The setting, then one call of julianday a line, each with a modifier or
/// more: those of a list, which is written as lists/readings.txt says, and
/// those of generated lines. None stands twice.
pub fn list(path: &str, mut output: impl Write) -> io::Result<()> {
    let mut seen = HashSet::new();
    output.write_all(SETTING)?;
    output.write_all(b"\n")?;
    for line in readings::ruled(path).into_iter().chain(generated()?) {
        let Some(call) = julianday(&line) else {
            continue;
        };
        if seen.insert(call.clone()) {
            output.write_all(&call)?;
            output.write_all(b"\n")?;
        }
    }
    output.flush()
}

fn generated() -> io::Result<Vec<Vec<u8>>> {
    let mut lines = Vec::new();
    for (theme, count) in THEMES {
        let mut text = Vec::new();
        generator::run(count, SEED, Some(theme), &mut text)?;
        lines.extend(text.split(|&b| b == b'\n').skip(1).map(<[u8]>::to_vec));
    }
    Ok(lines)
}

/// A field of more bytes shows no more than one of 256.
const LONGEST: usize = 300;

/// The time value and the modifiers of a call, asked of julianday: it answers
/// with the milliseconds, as an f64. None for a call without modifiers, and for
/// one that holds a zero byte: that is a fault of the whole line.
fn julianday(line: &[u8]) -> Option<Vec<u8>> {
    let mut fields = line.split(|&b| b == b'\t');
    match fields.next() {
        Some(b"timediff") => return None,
        Some(b"strftime") => _ = fields.next(),
        _ => {}
    }
    let fields: Vec<&[u8]> = fields.collect();
    let fits = |field: &&[u8]| field.len() <= LONGEST && !field.contains(&0);
    (fields.len() > 1 && fields.iter().all(fits))
        .then(|| [&b"julianday"[..], &fields.join(&b'\t')].join(&b'\t'))
}
