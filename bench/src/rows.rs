//! The table's rows: one call each, to the Rust, to the archive and to SQLite.

use crate::inputs::Inputs;
use crate::numeric::{NonNan, Numeric};
use crate::original;
#[cfg(sqlite)]
use crate::sqlite::{Bound, Statement};
use crate::types::{TextRef, TextSubtype, Value, ValueRef};
use dangsoviey::raw::{self, NumberFunction, Reply, TextFunction};

pub struct Row<'a> {
    pub number: &'static str,
    pub what: &'static str,
    pub rust_call: &'static str,
    pub here_call: &'static str,
    pub sqlite_call: &'static str,
    pub rust: Box<dyn Fn(usize) -> Value + 'a>,
    pub here: Box<dyn Fn(usize, &mut [u8]) -> Reply + 'a>,
    /// False for null; none where it is not installed or has no such function.
    pub sqlite: Option<Box<dyn Fn(usize) -> bool + 'a>>,
}

/// Clock and offset of all calls: none of them looks at either.
const CLOCK: u64 = 0;
const OFFSET: i64 = 0;

const FORMAT: &str = "%Y-%m-%d %H:%M:%f";

pub fn rows(inputs: &Inputs) -> Vec<Row<'_>> {
    let Inputs { texts, stamps, others, ms, seconds, whole } = inputs;
    let subsec = text("subsec");
    let unix = text("unixepoch");
    let month = text("+1 month");
    let format = text(FORMAT);
    vec![
        Row {
            number: "i",
            what: "text to milliseconds",
            rust_call: "unixepoch(text, 'subsec')",
            here_call: "milliseconds(text)",
            sqlite_call: "julianday(text)",
            rust: Box::new(move |i| original::exec_unixepoch([text(&texts[i]), subsec])),
            here: Box::new(|i, _| number(raw::dangsoviey_milliseconds, texts[i].as_bytes(), b"")),
            sqlite: sqlite("SELECT julianday(?1)", |i| [Bound::Text(&texts[i])]),
        },
        Row {
            number: "i, same call",
            what: "text to seconds with milliseconds",
            rust_call: "unixepoch(text, 'subsec')",
            here_call: "the same",
            sqlite_call: "",
            rust: Box::new(move |i| original::exec_unixepoch([text(&texts[i]), subsec])),
            here: Box::new(|i, _| {
                number(raw::dangsoviey_unixepoch, texts[i].as_bytes(), b"subsec\0")
            }),
            sqlite: None,
        },
        Row {
            number: "ii",
            what: "milliseconds to text with decimals",
            rust_call: "datetime(seconds, 'unixepoch', 'subsec')",
            here_call: "stamp(milliseconds)",
            sqlite_call: "strftime('%Y-%m-%d %H:%M:%f', seconds, 'unixepoch')",
            rust: Box::new(move |i| original::exec_datetime_full([real(seconds[i]), unix, subsec])),
            here: Box::new(|i, out| stamp(ms[i], out)),
            sqlite: sqlite("SELECT strftime('%Y-%m-%d %H:%M:%f', ?1, 'unixepoch')", |i| {
                [Bound::Real(seconds[i])]
            }),
        },
        Row {
            number: "ii, same call",
            what: "seconds to text with decimals",
            rust_call: "datetime(seconds, 'unixepoch', 'subsec')",
            here_call: "the same",
            sqlite_call: "",
            rust: Box::new(move |i| original::exec_datetime_full([real(seconds[i]), unix, subsec])),
            here: Box::new(|i, out| {
                let modifiers = b"unixepoch\0subsec\0";
                written(raw::dangsoviey_datetime, raw::REAL, 0, seconds[i], b"", modifiers, out)
            }),
            sqlite: None,
        },
        Row {
            number: "iii",
            what: "a month later",
            rust_call: "datetime(text, '+1 month')",
            here_call: "the same",
            sqlite_call: "the same",
            rust: Box::new(move |i| original::exec_datetime_full([text(&texts[i]), month])),
            here: Box::new(|i, out| {
                let value = texts[i].as_bytes();
                written(raw::dangsoviey_datetime, raw::BYTES, 0, 0.0, value, b"+1 month\0", out)
            }),
            sqlite: sqlite("SELECT datetime(?1, '+1 month')", |i| [Bound::Text(&texts[i])]),
        },
        Row {
            number: "iv",
            what: "by a format",
            rust_call: "strftime('%Y-%m-%d %H:%M:%f', text)",
            here_call: "the same",
            sqlite_call: "the same",
            rust: Box::new(move |i| original::exec_strftime([format, text(&texts[i])])),
            here: Box::new(|i, out| strftime(FORMAT.as_bytes(), texts[i].as_bytes(), out)),
            sqlite: sqlite("SELECT strftime('%Y-%m-%d %H:%M:%f', ?1)", |i| {
                [Bound::Text(&texts[i])]
            }),
        },
        Row {
            number: "v",
            what: "the shift between two",
            rust_call: "timediff(text, text)",
            here_call: "the same",
            sqlite_call: "the same",
            rust: Box::new(|i| original::exec_timediff([text(&stamps[i]), text(&others[i])])),
            here: Box::new(|i, out| timediff(stamps[i].as_bytes(), others[i].as_bytes(), out)),
            sqlite: sqlite("SELECT timediff(?1, ?2)", |i| {
                [Bound::Text(&stamps[i]), Bound::Text(&others[i])]
            }),
        },
        Row {
            number: "vi",
            what: "milliseconds to year, month, day",
            rust_call: "date(seconds, 'unixepoch')",
            here_call: "the same",
            sqlite_call: "the same",
            rust: Box::new(move |i| original::exec_date([integer(whole[i]), unix])),
            here: Box::new(|i, out| {
                let modifiers = b"unixepoch\0";
                written(raw::dangsoviey_date, raw::INTEGER, whole[i], 0.0, b"", modifiers, out)
            }),
            sqlite: sqlite("SELECT date(?1, 'unixepoch')", |i| [Bound::Integer(whole[i])]),
        },
    ]
}

/// What of SQLite's time is the statement's and not the function's.
pub fn statement_alone(inputs: &Inputs) -> Option<Box<dyn Fn(usize) -> bool + '_>> {
    sqlite("SELECT ?1", |i| [Bound::Text(&inputs.texts[i])])
}

fn text(text: &str) -> ValueRef<'_> {
    ValueRef::Text(TextRef::new(text, TextSubtype::Text))
}

fn real(number: f64) -> ValueRef<'static> {
    ValueRef::Numeric(Numeric::Float(NonNan::new(number).unwrap()))
}

fn integer(number: i64) -> ValueRef<'static> {
    ValueRef::Numeric(Numeric::Integer(number))
}

#[inline(always)]
fn written(
    function: TextFunction,
    given: u32,
    integer: i64,
    real: f64,
    value: &[u8],
    modifiers: &[u8],
    out: &mut [u8],
) -> Reply {
    // SAFETY: each pointer is a slice's, with its length, here and below; no slice overlaps `out`.
    unsafe {
        function(
            CLOCK,
            OFFSET,
            given,
            integer,
            real,
            value.as_ptr(),
            value.len(),
            modifiers.as_ptr(),
            modifiers.len(),
            out.as_mut_ptr(),
            out.len(),
        )
    }
}

#[inline(always)]
fn number(function: NumberFunction, value: &[u8], modifiers: &[u8]) -> Reply {
    // SAFETY: as above.
    unsafe {
        function(
            CLOCK,
            OFFSET,
            raw::BYTES,
            0,
            0.0,
            value.as_ptr(),
            value.len(),
            modifiers.as_ptr(),
            modifiers.len(),
        )
    }
}

#[inline(always)]
fn stamp(ms: i64, out: &mut [u8]) -> Reply {
    // SAFETY: as above.
    unsafe { raw::dangsoviey_stamp(ms, out.as_mut_ptr(), out.len()) }
}

#[inline(always)]
fn strftime(format: &[u8], value: &[u8], out: &mut [u8]) -> Reply {
    let modifiers: &[u8] = &[];
    // SAFETY: as above.
    unsafe {
        raw::dangsoviey_strftime(
            CLOCK,
            OFFSET,
            format.as_ptr(),
            format.len(),
            raw::BYTES,
            0,
            0.0,
            value.as_ptr(),
            value.len(),
            modifiers.as_ptr(),
            modifiers.len(),
            out.as_mut_ptr(),
            out.len(),
        )
    }
}

#[inline(always)]
fn timediff(first: &[u8], second: &[u8], out: &mut [u8]) -> Reply {
    // SAFETY: as above.
    unsafe {
        raw::dangsoviey_timediff(
            CLOCK,
            OFFSET,
            raw::BYTES,
            0,
            0.0,
            first.as_ptr(),
            first.len(),
            raw::BYTES,
            0,
            0.0,
            second.as_ptr(),
            second.len(),
            out.as_mut_ptr(),
            out.len(),
        )
    }
}

#[cfg(sqlite)]
fn sqlite<'a, const N: usize>(
    sql: &str,
    bound: impl Fn(usize) -> [Bound<'a>; N] + 'a,
) -> Option<Box<dyn Fn(usize) -> bool + 'a>> {
    let statement = Statement::new(sql)?;
    Some(Box::new(move |i| statement.call(&bound(i))))
}

#[cfg(not(sqlite))]
enum Bound<'a> {
    Text(#[allow(dead_code)] &'a str),
    Real(#[allow(dead_code)] f64),
    Integer(#[allow(dead_code)] i64),
}

#[cfg(not(sqlite))]
fn sqlite<'a, const N: usize>(
    _: &str,
    _: impl Fn(usize) -> [Bound<'a>; N] + 'a,
) -> Option<Box<dyn Fn(usize) -> bool + 'a>> {
    None
}
