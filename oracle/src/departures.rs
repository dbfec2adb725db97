//! `oracle departures`: every line whose raw and ruled answers differ, counted
//! under the names that make the difference.

use crate::limits::{self, Departures};
use crate::lines::{self, Reading};
use std::collections::BTreeMap;
use std::io::{self, BufRead};

const EXAMPLES: usize = 3;

/// The name of a difference that no rule of 01 explains.
const UNNAMED: &str = "UNNAMED";

#[derive(Default)]
struct Count {
    lines: u64,
    examples: Vec<String>,
}

/// The lines looked at, and those whose raw answer is another, by name.
#[derive(Default)]
pub struct Differences {
    pub total: u64,
    counts: BTreeMap<String, Count>,
}

impl Differences {
    /// Looks at one more line, whose ruled answer is given.
    pub fn take(&mut self, line: &[u8], ruled: &[u8]) {
        self.total += 1;
        let raw = answer(Reading::Raw, line);
        if raw == ruled {
            return;
        }
        let count = self.counts.entry(name(line, &raw, ruled)).or_default();
        count.lines += 1;
        if count.examples.len() < EXAMPLES {
            count.examples.push(example(line, &raw, ruled));
        }
    }

    pub fn add(&mut self, other: Differences) {
        self.total += other.total;
        for (name, theirs) in other.counts {
            let count = self.counts.entry(name).or_default();
            count.lines += theirs.lines;
            count.examples.extend(theirs.examples);
            count.examples.truncate(EXAMPLES);
        }
    }

    pub fn all_named(&self) -> bool {
        !self.counts.contains_key(UNNAMED)
    }

    pub fn print_table(&self) {
        for (name, count) in &self.counts {
            println!("{name}: {}", count.lines);
            for example in &count.examples {
                println!("    {example}");
            }
        }
    }

    pub fn summary(&self) -> String {
        let differ: u64 = self.counts.values().map(|count| count.lines).sum();
        let names: Vec<String> =
            self.counts.iter().map(|(name, count)| format!("{name} {}", count.lines)).collect();
        format!("{differ} differ: {}", names.join(", "))
    }
}

/// Prints the counts; false if there is an unnamed difference or no setting.
pub fn run(input: impl BufRead) -> io::Result<bool> {
    let mut found = Differences::default();
    let good = lines::each(input, |line| {
        let ruled = answer(Reading::Ruled(limits::ALL), line);
        found.take(line, &ruled);
        Ok(())
    })?;
    if !good {
        println!("departures: no good first line");
        return Ok(false);
    }
    found.print_table();
    println!("departures: {} lines, {}", found.total, found.summary());
    Ok(found.all_named())
}

fn answer(reading: Reading, line: &[u8]) -> Vec<u8> {
    let mut out = Vec::new();
    lines::answer(reading, line, &mut out);
    out
}

/// `refusal 2` and `refusal 3` come before all reading. For the rest it is the
/// smallest set of departures that, alone switched on, gives the ruled answer.
fn name(line: &[u8], raw: &[u8], ruled: &[u8]) -> String {
    if let b"refused 2" | b"refused 3" = ruled {
        return format!("refusal {}", ruled[8] as char);
    }
    if answer(Reading::Ruled(limits::NONE), line) != raw {
        return UNNAMED.into();
    }
    let mut sets: Vec<Departures> = (1..=limits::ALL).collect();
    sets.sort_by_key(|set| set.count_ones());
    let enough = |set: &Departures| answer(Reading::Ruled(*set), line) == ruled;
    match sets.into_iter().find(enough) {
        Some(set) if in_kind(set, line, ruled) => words(set),
        _ => UNNAMED.into(),
    }
}

/// Whether the answer, and the function, are of the kind that 01 gives to each
/// of these departures.
fn in_kind(set: Departures, line: &[u8], ruled: &[u8]) -> bool {
    let has = |departure| set & departure != 0;
    let timediff = line.starts_with(b"timediff\t");
    let strftime = line.starts_with(b"strftime\t");
    has(limits::DECIMAL) == (ruled == b"refused 5")
        && has(limits::EARLY) == (ruled == b"refused 6")
        && (!has(limits::EARLY) || strftime)
        && (!has(limits::RANGE) || ruled == b"null" && (strftime || timediff))
        && (!has(limits::RENEW) || timediff)
        && (!has(limits::ROUND) || line.contains(&b':') && !timediff)
}

fn words(set: Departures) -> String {
    let names = limits::NAMES.iter().enumerate();
    let on = names.filter(|(i, _)| set & 1 << i != 0);
    on.map(|(_, name)| *name).collect::<Vec<_>>().join("+")
}

fn example(line: &[u8], raw: &[u8], ruled: &[u8]) -> String {
    let [line, raw, ruled] = [line, raw, ruled].map(|part| shown(part, 80));
    format!("{line} => raw {raw}, ruled {ruled}")
}

/// `>` for a tab, and at most so many bytes.
pub fn shown(text: &[u8], most: usize) -> String {
    let cut = &text[..text.len().min(most)];
    let dots = if cut.len() < text.len() { ".." } else { "" };
    let tabs: Vec<u8> = cut.iter().map(|&b| if b == b'\t' { b'>' } else { b }).collect();
    format!("{}{dots}", tabs.escape_ascii())
}
