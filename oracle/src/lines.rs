//! The program format of 01: tab-separated lines, one answer each.

use crate::limits::{self, Departures};
use crate::numeric::Numeric;
use crate::types::{TextRef, TextSubtype, Value, ValueRef};
use crate::{raw, ruled, shims};
use std::io::{self, BufRead, Write};

/// How a line is read.
#[derive(Clone, Copy)]
pub enum Reading {
    /// The Rust as it is. Only a function that it has not is refused.
    Raw,
    /// 01, with these departures from the Rust switched on.
    Ruled(Departures),
}

const LINE_LIMIT: usize = 8192;
pub const VALUE_LIMIT: usize = 255;
pub const FORMAT_LIMIT: usize = 1024;
pub const MODIFIERS_LIMIT: usize = 16;
pub const CLOCK_LIMIT: u64 = 253402300799999;
pub const OFFSET_LIMIT: u64 = 86399;

#[derive(Clone, Copy, PartialEq)]
pub enum Function {
    Date,
    Time,
    Datetime,
    Julianday,
    Unixepoch,
    Strftime,
    Timediff,
}

pub fn function(name: &[u8]) -> Option<Function> {
    Some(match name {
        b"date" => Function::Date,
        b"time" => Function::Time,
        b"datetime" => Function::Datetime,
        b"julianday" => Function::Julianday,
        b"unixepoch" => Function::Unixepoch,
        b"strftime" => Function::Strftime,
        b"timediff" => Function::Timediff,
        _ => return None,
    })
}

/// The same call to either copy of the Rust.
macro_rules! call {
    ($copy:ident, $function:expr, $values:expr) => {
        match $function {
            Function::Date => $copy::exec_date($values),
            Function::Time => $copy::exec_time($values),
            Function::Datetime => $copy::exec_datetime_full($values),
            Function::Julianday => $copy::exec_julianday($values),
            Function::Unixepoch => $copy::exec_unixepoch($values),
            Function::Strftime => $copy::exec_strftime($values),
            Function::Timediff => $copy::exec_timediff($values),
        }
    };
}

/// Reads the setting, then hands over each line without its newline. False if
/// there is no good first line: then there are no others.
pub fn each(
    mut input: impl BufRead,
    mut f: impl FnMut(&[u8]) -> io::Result<()>,
) -> io::Result<bool> {
    let mut line = Vec::new();
    if !next(&mut input, &mut line)? {
        return Ok(false);
    }
    match setting(&line) {
        Some((clock, offset)) => shims::set(clock, offset),
        None => return Ok(false),
    }
    while next(&mut input, &mut line)? {
        f(&line)?;
    }
    Ok(true)
}

/// The whole run of the program.
pub fn run(reading: Reading, input: impl BufRead, mut output: impl Write) -> io::Result<()> {
    let mut text = Vec::new();
    let good = each(input, |line| {
        text.clear();
        answer(reading, line, &mut text);
        text.push(b'\n');
        output.write_all(&text)
    })?;
    if !good {
        output.write_all(b"refused 4\n")?;
    }
    output.flush()
}

/// A last line may lack its newline; after a last newline there is no line.
fn next(input: &mut impl BufRead, line: &mut Vec<u8>) -> io::Result<bool> {
    line.clear();
    let read = input.read_until(b'\n', line)?;
    if line.last() == Some(&b'\n') {
        line.pop();
    }
    Ok(read > 0)
}

/// Clock and offset of a good first line.
pub fn setting(line: &[u8]) -> Option<(u64, i32)> {
    if line.len() > LINE_LIMIT {
        return None;
    }
    let tab = line.iter().position(|&b| b == b'\t')?;
    let clock = whole(&line[..tab], CLOCK_LIMIT)?;
    let offset = &line[tab + 1..];
    let offset = match offset.strip_prefix(b"-") {
        Some(digits) => -(whole(digits, OFFSET_LIMIT)? as i32),
        None => whole(offset, OFFSET_LIMIT)? as i32,
    };
    Some((clock, offset))
}

/// One or more digits, of a value up to the limit.
fn whole(digits: &[u8], limit: u64) -> Option<u64> {
    let mut value = 0;
    for b in digits {
        if !b.is_ascii_digit() {
            return None;
        }
        value = value * 10 + u64::from(b - b'0');
        if value > limit {
            return None;
        }
    }
    (!digits.is_empty()).then_some(value)
}

/// Adds the answer to a line, without a newline.
pub fn answer(reading: Reading, line: &[u8], out: &mut Vec<u8>) {
    let mut fields = line.split(|&b| b == b'\t');
    let name = fields.next().unwrap_or_default();
    let Some(function) = function(name) else {
        return refused(2, out);
    };
    if let Reading::Ruled(_) = reading {
        if misshapen(line, function) {
            return refused(2, out);
        }
        if !line.is_ascii() {
            return refused(3, out);
        }
    }
    let values: Vec<ValueRef> = fields.map(value).collect();
    match reading {
        Reading::Raw => write(call!(raw, function, values), out),
        Reading::Ruled(departures) => match ruled(departures, function, values) {
            Ok(value) => write(value, out),
            Err(number) => refused(number, out),
        },
    }
}

/// What 01 gives, or its refusal 5 or 6.
pub fn ruled(
    departures: Departures,
    function: Function,
    values: Vec<ValueRef>,
) -> Result<Value, u8> {
    limits::switch(departures);
    let value = call!(ruled, function, values);
    match limits::take_met() {
        None => Ok(value),
        Some(number) => {
            assert!(matches!(value, Value::Null), "refusal {number} and an answer");
            Err(number)
        }
    }
}

/// Refusal 2, for a line of a known function.
fn misshapen(line: &[u8], function: Function) -> bool {
    let mut fields = line.split(|&b| b == b'\t').skip(1);
    let bad_format = function == Function::Strftime
        && match fields.next() {
            Some(format) => format.len() > FORMAT_LIMIT,
            None => true,
        };
    let values = if function == Function::Timediff { 2 } else { 1 };
    let modifiers = if function == Function::Timediff { 0 } else { MODIFIERS_LIMIT };
    let mut count = 0;
    let mut long = false;
    for field in fields {
        count += 1;
        long |= field.len() > VALUE_LIMIT;
    }
    bad_format
        || long
        || !(values..=values + modifiers).contains(&count)
        || line.len() > LINE_LIMIT
        || line.contains(&0)
}

/// The Rust's text is UTF-8; other bytes are a blob to it.
pub fn value(field: &[u8]) -> ValueRef<'_> {
    match std::str::from_utf8(field) {
        Ok(text) => ValueRef::Text(TextRef::new(text, TextSubtype::Text)),
        Err(_) => ValueRef::Blob(field),
    }
}

fn write(value: Value, out: &mut Vec<u8>) {
    match value {
        Value::Null => out.extend(b"null"),
        Value::Text(text) => out.extend(text.as_bytes()),
        Value::Numeric(Numeric::Integer(i)) => write!(out, "{i}").unwrap(),
        Value::Numeric(Numeric::Float(f)) => {
            write!(out, "{:016x}", f64::from(f).to_bits()).unwrap()
        }
    }
}

fn refused(number: u8, out: &mut Vec<u8>) {
    write!(out, "refused {number}").unwrap();
}
