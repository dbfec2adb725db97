//! `oracle sqlite`: generated lines through the `sqlite3` of the system and
//! through 01, and what differs, by class. Nothing here decides an answer: 01
//! and the page do. It shows what a user of that SQLite will notice.

use crate::departures::shown;
use crate::limits;
use crate::lines::{self, Reading};
use crate::{generator, shims};
use std::collections::BTreeMap;
use std::io::{self, Read, Write};
use std::process::{Command, Stdio};
use std::thread;

const EXAMPLES: usize = 2;

#[derive(Default)]
struct Class {
    lines: u64,
    examples: Vec<String>,
}

/// Prints counts by class; false if a difference has none.
pub fn run(count: u64, seed: u64) -> io::Result<bool> {
    let input = generator::numbered(count, seed, 0);
    let mut all = input.strip_suffix(b"\n").unwrap_or(&input).split(|&b| b == b'\n');
    let (clock, offset) = lines::setting(all.next().unwrap()).unwrap();
    shims::set(clock, offset);
    let mut left_out: BTreeMap<&str, u64> = BTreeMap::new();
    let mut asked = Vec::new();
    for line in all {
        match not_asked(line) {
            Some(why) => *left_out.entry(why).or_default() += 1,
            None => asked.push(line),
        }
    }
    let answers = ask(&asked, offset)?;
    let mut classes: BTreeMap<&str, Class> = BTreeMap::new();
    let mut same = 0;
    for (line, theirs) in asked.iter().zip(&answers) {
        let mut ours = Vec::new();
        lines::answer(Reading::Ruled(limits::ALL), line, &mut ours);
        if ours == *theirs {
            same += 1;
            continue;
        }
        let class = classes.entry(class(line, &ours, theirs)).or_default();
        class.lines += 1;
        if class.examples.len() < EXAMPLES {
            let [line, theirs, ours] = [*line, &theirs[..], &ours[..]].map(|part| shown(part, 100));
            class.examples.push(format!("{line} => {theirs}, 01 has {ours}"));
        }
    }
    for (why, lines) in &left_out {
        println!("not asked, {why}: {lines}");
    }
    for (name, class) in &classes {
        println!("{name}: {}", class.lines);
        for example in &class.examples {
            println!("    {example}");
        }
    }
    println!(
        "sqlite {}: {count} lines, {} asked, {same} answered the same, {} otherwise",
        version()?,
        asked.len(),
        asked.len() - same
    );
    Ok(!classes.contains_key(UNCLASSED))
}

const UNCLASSED: &str = "UNCLASSED";

/// Why SQLite 3.40 cannot be asked, or not in the same words.
fn not_asked(line: &[u8]) -> Option<&'static str> {
    let mut ruled = Vec::new();
    lines::answer(Reading::Ruled(limits::ALL), line, &mut ruled);
    match &ruled[..] {
        b"refused 2" | b"refused 3" => return Some("refusals 2 and 3"),
        b"refused 5" => return Some("refusal 5"),
        b"refused 6" => return Some("refusal 6"),
        _ => {}
    }
    let call = Call::of(line);
    let is = |words: &[&str], field: &[u8]| {
        words.iter().any(|w| field.eq_ignore_ascii_case(w.as_bytes()))
    };
    if call.function == b"timediff" {
        return Some("timediff (from 3.43)");
    }
    if is(&["now", "subsec", "subsecond"], call.value) {
        return Some("now (its clock cannot be set)");
    }
    if call.modifiers.iter().any(|m| is(&["subsec", "subsecond"], m)) {
        return Some("subsec (from 3.42)");
    }
    if call.modifiers.iter().any(|m| is(&["ceiling", "floor"], m)) {
        return Some("ceiling, floor (from 3.46)");
    }
    if call.modifiers.iter().any(|m| date_form(m)) {
        return Some("modifiers +YYYY-MM-DD (from 3.43)");
    }
    if letters(call.format).any(|b| b"eFgGIklpPRTuUV".contains(&b)) {
        return Some(
            "letters %e %F %I %k %l %p %P %R %T %u (from 3.44) and %g %G %U %V (from 3.46)",
        );
    }
    None
}

/// The parts of a line.
struct Call<'a> {
    function: &'a [u8],
    format: &'a [u8],
    value: &'a [u8],
    modifiers: Vec<&'a [u8]>,
}

impl Call<'_> {
    fn of(line: &[u8]) -> Call<'_> {
        let mut fields = line.split(|&b| b == b'\t');
        let function = fields.next().unwrap();
        let format = if function == b"strftime" { fields.next().unwrap() } else { b"" };
        let value = fields.next().unwrap();
        Call { function, format, value, modifiers: fields.collect() }
    }
}

/// What stands after each percent sign.
fn letters(format: &[u8]) -> impl Iterator<Item = u8> + '_ {
    let mut bytes = format.iter();
    std::iter::from_fn(move || {
        bytes.find(|&&b| b == b'%')?;
        bytes.next().copied()
    })
}

/// A sign, and a date after it.
fn date_form(modifier: &[u8]) -> bool {
    let unsigned = modifier.strip_prefix(b"+").or(modifier.strip_prefix(b"-")).unwrap_or(modifier);
    unsigned.len() >= 10 && unsigned[4] == b'-' && unsigned[7] == b'-'
}

/// The first class whose mark the line has.
fn class(line: &[u8], ours: &[u8], theirs: &[u8]) -> &'static str {
    let call = Call::of(line);
    let modifiers = &call.modifiers;
    let number = std::str::from_utf8(call.value).ok().and_then(|v| v.trim().parse::<f64>().ok());
    let zones = modifiers.iter().filter(|m| is_word(m, "localtime") || is_word(m, "utc")).count();
    let has = |letter| letters(call.format).any(|b| b == letter);
    if call.value.contains(&11) && ours == b"null" {
        "byte 11 is whitespace in a time value"
    } else if theirs == b"null" && modifiers.iter().any(|m| more_after_unit(m)) {
        "nothing may follow N unit"
    } else if modifiers.iter().any(|m| unsigned(m).starts_with(b"24:")) {
        "hour 24 of a modifier counts as 0"
    } else if modifiers.iter().any(|m| time_form(m) && zone_after(unsigned(m))) {
        "a zone in a modifier's time is applied"
    } else if modifiers.iter().any(|m| far(m)) {
        "the limits of hours, minutes and seconds are 32-bit floats"
    } else if before(call.value) {
        "time values of year -4713 and before"
    } else if line.split(|&b| b == b'\t').any(above_999) {
        "a fraction above .999 is not cut to it"
    } else if modifiers.is_empty() && call.function.starts_with(b"date") && day(call.value) > 28 {
        "a day past its month is not renewed"
    } else if time_form(call.value) && zone_after(call.value) && !modifiers.is_empty() {
        "a time alone with a zone, and a modifier"
    } else if early(call.value) || ours.starts_with(b"-") || number.is_some_and(|n| n < EARLY) {
        "the calendar before year 400 is a day off in places"
    } else if zones > 1 {
        "localtime after localtime"
    } else if zones > 0 && (ours == b"null" || theirs == b"null") {
        "localtime and utc past the end of the range"
    } else if zones > 0 && day(call.value) > 28 {
        "localtime of a day past its month"
    } else if call.value.starts_with(b"24:") {
        "hour 24 alone: %j, months and years"
    } else if has(b'J') {
        "%J rounds a tie otherwise"
    } else if line.split(|&b| b == b'\t').any(long) {
        "a long decimal is read to a neighbour of the nearest f64"
    } else if has(b'f') && fine(call.value) {
        "%f rounds a half up"
    } else {
        UNCLASSED
    }
}

fn is_word(field: &[u8], word: &str) -> bool {
    field.eq_ignore_ascii_case(word.as_bytes())
}

fn unsigned(field: &[u8]) -> &[u8] {
    field.strip_prefix(b"+").or(field.strip_prefix(b"-")).unwrap_or(field)
}

/// The six bytes that part the words of a modifier.
fn is_blank(b: &u8) -> bool {
    matches!(b, 9..=13 | 32)
}

/// Words of an arithmetic modifier.
fn words(modifier: &[u8]) -> Vec<&[u8]> {
    modifier.split(is_blank).filter(|w| !w.is_empty()).collect()
}

fn more_after_unit(modifier: &[u8]) -> bool {
    unsigned(modifier).first().is_some_and(|&b| b == b'.' || b.is_ascii_digit())
        && (words(modifier).len() > 2 || modifier.last().is_some_and(is_blank))
}

fn time_form(modifier: &[u8]) -> bool {
    unsigned(modifier).get(2) == Some(&b':')
}

/// A sign or Z after the time.
fn zone_after(time: &[u8]) -> bool {
    time[3..].iter().any(|b| b"+-Zz".contains(b))
}

/// Hours, minutes or seconds by a number near the limits of 01.
fn far(modifier: &[u8]) -> bool {
    let first = words(modifier).first().and_then(|w| std::str::from_utf8(w).ok());
    first.and_then(|w| w.parse::<f64>().ok()).is_some_and(|n| n.abs() > 1e11)
}

/// Year -4713 or one before it.
fn before(value: &[u8]) -> bool {
    value.first() == Some(&b'-') && value.get(1..5).is_some_and(|year| year >= &b"4713"[..])
}

/// The Julian day of 0400-01-01.
const EARLY: f64 = 1867156.5;

/// A year before 400.
fn early(value: &[u8]) -> bool {
    value.get(4) == Some(&b'-') && value < b"04" || value.starts_with(b"-")
}

/// The day of a date, 0 if it is none.
fn day(value: &[u8]) -> u32 {
    let day = value.strip_prefix(b"-").unwrap_or(value).get(8..10);
    day.and_then(|d| std::str::from_utf8(d).ok()).and_then(|d| d.parse().ok()).unwrap_or(0)
}

/// A decimal of more than 15 digits.
fn long(field: &[u8]) -> bool {
    field.iter().take_while(|b| b"+-.0123456789".contains(b)).count() > 16
}

/// A fraction of more than three digits.
fn fine(value: &[u8]) -> bool {
    value.windows(5).any(|w| w[0] == b'.' && w[1..].iter().all(u8::is_ascii_digit))
}

/// More than .999 in written digits.
fn above_999(field: &[u8]) -> bool {
    field.windows(5).any(|w| w.starts_with(b".999") && w[4].is_ascii_digit())
}

fn version() -> io::Result<String> {
    let output = Command::new("sqlite3").arg("--version").output()?;
    let text = String::from_utf8_lossy(&output.stdout);
    Ok(text.split(' ').next().unwrap_or_default().to_string())
}

/// What sqlite3 answers, in the words of the lines.
fn ask(asked: &[&[u8]], offset: i32) -> io::Result<Vec<Vec<u8>>> {
    let mut child = Command::new("sqlite3")
        .args(["-batch", "-init", "/dev/null", "-nullvalue", "null", "-separator", "\t"])
        .env("TZ", zone(offset))
        .stdin(Stdio::piped())
        .stdout(Stdio::piped())
        .spawn()?;
    let mut stdin = child.stdin.take().unwrap();
    let mut stdout = child.stdout.take().unwrap();
    let mut output = Vec::new();
    thread::scope(|scope| {
        scope.spawn(move || {
            let mut text = Vec::new();
            asked.iter().enumerate().for_each(|(i, line)| question(i, line, &mut text));
            stdin.write_all(&text).ok()
        });
        stdout.read_to_end(&mut output)
    })?;
    child.wait()?;
    let mut answers = vec![b"no answer".to_vec(); asked.len()];
    for line in output.split(|&b| b == b'\n') {
        let Some(tab) = line.iter().position(|&b| b == b'\t') else { continue };
        let number = std::str::from_utf8(&line[..tab]).ok().and_then(|n| n.parse::<usize>().ok());
        if let Some(number) = number {
            answers[number] = line[tab + 1..].to_vec();
        }
    }
    Ok(answers)
}

/// The same offset at all times, as POSIX writes it: west is plus.
fn zone(offset: i32) -> String {
    let sign = if offset > 0 { '-' } else { '+' };
    let east = offset.abs();
    format!("XXX{sign}{:02}:{:02}:{:02}", east / 3600, east / 60 % 60, east % 60)
}

/// A SELECT with the line's number, so that an answer finds its line.
fn question(number: usize, line: &[u8], out: &mut Vec<u8>) {
    let mut fields = line.split(|&b| b == b'\t');
    let function = fields.next().unwrap();
    let float = function == b"julianday";
    write!(out, "SELECT {number}, ").unwrap();
    if float {
        // The bits of the f64; hex has no null of its own.
        out.extend(b"nullif(lower(hex(ieee754_to_blob(");
    }
    out.extend(function);
    let mut before = b'(';
    for field in fields {
        out.push(before);
        out.push(b'\'');
        for &b in field {
            out.extend(std::iter::repeat_n(b, if b == b'\'' { 2 } else { 1 }));
        }
        out.push(b'\'');
        before = b',';
    }
    out.push(b')');
    if float {
        out.extend(b"))),'')");
    }
    out.extend(b";\n");
}
