//! SQLite's date and time functions with clock and zone as arguments: a safe API over the archive `libdangsoviey.a`, whose every function
//! is proved to meet its contract.
//!
//! ```
//! use dangsoviey::{datetime, timediff_string, unixepoch, Refusal, Seconds, Setting, NONE};
//!
//! let setting = Setting { clock_ms: 1_700_000_000_000, offset_s: 0 };
//! let mut out = [0; 32];
//! assert_eq!(datetime(setting, "now", NONE, &mut out), Ok("2023-11-14 22:13:20"));
//! assert_eq!(datetime(setting, "2024-01-31 10:00", &["+1 month", "floor"], &mut out), Ok("2024-02-29 10:00:00"));
//! assert_eq!(unixepoch(setting, "1969-12-31 23:59:59.5", NONE), Ok(Seconds::Integer(-1)));
//! assert_eq!(timediff_string(setting, "2023-03-01", "2023-01-31").as_deref(), Ok("+0000-00-29 00:00:00.000"));
//! assert_eq!(datetime(setting, "25:00", NONE, &mut out), Err(Refusal::Null));
//! ```
//!
//! Time values are texts or numbers ([`Value`]), modifiers a slice of texts ([`NONE`] where there are none). A text answer goes into a
//! buffer that the caller lends, from its first byte on; bytes after it, and all bytes after a refusal, stay as they were. The functions
//! whose names end in `_string` allocate instead. Apart from them nothing allocates, nothing is kept, there is no state: every function may
//! be called from any thread. All texts are ASCII.
//!
//! [`raw`] has the archive's own functions, for callers that lay out modifiers beforehand.

#![deny(missing_docs)]
#![deny(unsafe_op_in_unsafe_fn)]

mod arguments;
pub mod raw;
mod refusal;

pub use arguments::{Setting, Value, NONE};
pub use refusal::Refusal;

use arguments::laid_out;
use raw::{NumberFunction, Reply, TextFunction};

/// What [`unixepoch`] gives.
#[derive(Clone, Copy, Debug, PartialEq)]
pub enum Seconds {
    /// Whole seconds, rounded by floor.
    Integer(i64),
    /// With `subsec`: seconds and milliseconds.
    Real(f64),
}

/// YYYY-MM-DD, and a minus before it in years below 0.
pub fn date<'a, 'o>(
    setting: Setting,
    value: impl Into<Value<'a>>,
    modifiers: &[impl AsRef<[u8]>],
    out: &'o mut [u8],
) -> Result<&'o str, Refusal> {
    text(raw::dangsoviey_date, setting, value.into(), modifiers, out)
}

/// HH:MM:SS, and three decimals with `subsec`, as a modifier or as the time value.
pub fn time<'a, 'o>(
    setting: Setting,
    value: impl Into<Value<'a>>,
    modifiers: &[impl AsRef<[u8]>],
    out: &'o mut [u8],
) -> Result<&'o str, Refusal> {
    text(raw::dangsoviey_time, setting, value.into(), modifiers, out)
}

/// The date, a space and the time.
pub fn datetime<'a, 'o>(
    setting: Setting,
    value: impl Into<Value<'a>>,
    modifiers: &[impl AsRef<[u8]>],
    out: &'o mut [u8],
) -> Result<&'o str, Refusal> {
    text(raw::dangsoviey_datetime, setting, value.into(), modifiers, out)
}

/// The Julian day: days, and parts of one, from noon of -4713-11-24.
pub fn julianday<'a>(
    setting: Setting,
    value: impl Into<Value<'a>>,
    modifiers: &[impl AsRef<[u8]>],
) -> Result<f64, Refusal> {
    let reply = number(raw::dangsoviey_julianday, setting, value.into(), modifiers)?;
    Ok(reply.real)
}

/// Seconds since 1970-01-01 00:00:00 UTC.
pub fn unixepoch<'a>(
    setting: Setting,
    value: impl Into<Value<'a>>,
    modifiers: &[impl AsRef<[u8]>],
) -> Result<Seconds, Refusal> {
    let reply = number(raw::dangsoviey_unixepoch, setting, value.into(), modifiers)?;
    Ok(if reply.kind == raw::FLOAT {
        Seconds::Real(reply.real)
    } else {
        Seconds::Integer(reply.integer)
    })
}

/// The moment in milliseconds since 1970-01-01 00:00:00 UTC, exact.
pub fn milliseconds<'a>(
    setting: Setting,
    value: impl Into<Value<'a>>,
    modifiers: &[impl AsRef<[u8]>],
) -> Result<i64, Refusal> {
    let reply = number(raw::dangsoviey_milliseconds, setting, value.into(), modifiers)?;
    Ok(reply.integer)
}

/// YYYY-MM-DD HH:MM:SS.SSS of milliseconds since 1970-01-01 00:00:00 UTC; [`Refusal::Null`] below -210866760000000 and above
/// 253402300799999.
pub fn stamp(ms: i64, out: &mut [u8]) -> Result<&str, Refusal> {
    // SAFETY: the pointer is the slice's, with its length.
    let length = written(unsafe { raw::dangsoviey_stamp(ms, out.as_mut_ptr(), out.len()) })?;
    Ok(ascii(&out[..length]))
}

/// The moment as the format says. After a `%` stand d e F f g G H I j J k l m M p P R s S T u U V w W Y or a second `%`.
pub fn strftime<'a, 'o>(
    setting: Setting,
    format: impl AsRef<[u8]>,
    value: impl Into<Value<'a>>,
    modifiers: &[impl AsRef<[u8]>],
    out: &'o mut [u8],
) -> Result<&'o str, Refusal> {
    let format = format.as_ref();
    let value = value.into().parts();
    let length = laid_out(modifiers, |modifiers| {
        // SAFETY: each pointer is a slice's, with that slice's length; `out` is borrowed mutably, so no other slice overlaps it.
        written(unsafe {
            raw::dangsoviey_strftime(
                setting.clock_ms,
                setting.offset_s,
                format.as_ptr(),
                format.len(),
                value.given,
                value.integer,
                value.real,
                value.bytes.as_ptr(),
                value.bytes.len(),
                modifiers.as_ptr(),
                modifiers.len(),
                out.as_mut_ptr(),
                out.len(),
            )
        })
    })?;
    Ok(ascii(&out[..length]))
}

/// How far, and which way, `second` is moved to reach `first`: a sign, then YYYY-MM-DD HH:MM:SS.SSS. As the only modifier of a `second` written
/// in full (no zone, an existing day, an hour up to 23, years 0 to 9999) it leads to such a `first`, to the millisecond. An absent value is
/// null here.
pub fn timediff<'a, 'b, 'o>(
    setting: Setting,
    first: impl Into<Value<'a>>,
    second: impl Into<Value<'b>>,
    out: &'o mut [u8],
) -> Result<&'o str, Refusal> {
    let first = first.into().parts();
    let second = second.into().parts();
    // SAFETY: each pointer is a slice's, with that slice's length; `out` is borrowed mutably, so no other slice overlaps it.
    let length = written(unsafe {
        raw::dangsoviey_timediff(
            setting.clock_ms,
            setting.offset_s,
            first.given,
            first.integer,
            first.real,
            first.bytes.as_ptr(),
            first.bytes.len(),
            second.given,
            second.integer,
            second.real,
            second.bytes.as_ptr(),
            second.bytes.len(),
            out.as_mut_ptr(),
            out.len(),
        )
    })?;
    Ok(ascii(&out[..length]))
}

/// [`date`] into a new `String`.
pub fn date_string<'a>(
    setting: Setting,
    value: impl Into<Value<'a>>,
    modifiers: &[impl AsRef<[u8]>],
) -> Result<String, Refusal> {
    let value = value.into();
    allocated(|out| date(setting, value, modifiers, out).map(str::len))
}

/// [`time`] into a new `String`.
pub fn time_string<'a>(
    setting: Setting,
    value: impl Into<Value<'a>>,
    modifiers: &[impl AsRef<[u8]>],
) -> Result<String, Refusal> {
    let value = value.into();
    allocated(|out| time(setting, value, modifiers, out).map(str::len))
}

/// [`datetime`] into a new `String`.
pub fn datetime_string<'a>(
    setting: Setting,
    value: impl Into<Value<'a>>,
    modifiers: &[impl AsRef<[u8]>],
) -> Result<String, Refusal> {
    let value = value.into();
    allocated(|out| datetime(setting, value, modifiers, out).map(str::len))
}

/// [`strftime`] into a new `String`.
pub fn strftime_string<'a>(
    setting: Setting,
    format: impl AsRef<[u8]>,
    value: impl Into<Value<'a>>,
    modifiers: &[impl AsRef<[u8]>],
) -> Result<String, Refusal> {
    let value = value.into();
    allocated(|out| strftime(setting, format.as_ref(), value, modifiers, out).map(str::len))
}

/// [`timediff`] into a new `String`.
pub fn timediff_string<'a, 'b>(
    setting: Setting,
    first: impl Into<Value<'a>>,
    second: impl Into<Value<'b>>,
) -> Result<String, Refusal> {
    let (first, second) = (first.into(), second.into());
    allocated(|out| timediff(setting, first, second, out).map(str::len))
}

/// [`stamp`] into a new `String`.
pub fn stamp_string(ms: i64) -> Result<String, Refusal> {
    allocated(|out| stamp(ms, out).map(str::len))
}

fn text<'o>(
    function: TextFunction,
    setting: Setting,
    value: Value<'_>,
    modifiers: &[impl AsRef<[u8]>],
    out: &'o mut [u8],
) -> Result<&'o str, Refusal> {
    let value = value.parts();
    let length = laid_out(modifiers, |modifiers| {
        // SAFETY: each pointer is a slice's, with that slice's length; `out` is borrowed mutably, so no other slice overlaps it.
        written(unsafe {
            function(
                setting.clock_ms,
                setting.offset_s,
                value.given,
                value.integer,
                value.real,
                value.bytes.as_ptr(),
                value.bytes.len(),
                modifiers.as_ptr(),
                modifiers.len(),
                out.as_mut_ptr(),
                out.len(),
            )
        })
    })?;
    Ok(ascii(&out[..length]))
}

fn number(
    function: NumberFunction,
    setting: Setting,
    value: Value<'_>,
    modifiers: &[impl AsRef<[u8]>],
) -> Result<Reply, Refusal> {
    let value = value.parts();
    laid_out(modifiers, |modifiers| {
        // SAFETY: each pointer is a slice's, with that slice's length; nothing is written.
        let reply = unsafe {
            function(
                setting.clock_ms,
                setting.offset_s,
                value.given,
                value.integer,
                value.real,
                value.bytes.as_ptr(),
                value.bytes.len(),
                modifiers.as_ptr(),
                modifiers.len(),
            )
        };
        answered(reply)
    })
}

fn answered(reply: Reply) -> Result<Reply, Refusal> {
    if reply.kind == raw::REFUSED {
        return Err(Refusal::of(reply));
    }
    Ok(reply)
}

/// The length of a text answer.
fn written(reply: Reply) -> Result<usize, Refusal> {
    Ok(answered(reply)?.length)
}

fn ascii(answer: &[u8]) -> &str {
    std::str::from_utf8(answer).expect("answers are ASCII")
}

/// Room for every answer but strftime's long ones.
const USUAL: usize = 32;

/// The text that `write` writes, with as much room as it asks for.
fn allocated(write: impl Fn(&mut [u8]) -> Result<usize, Refusal>) -> Result<String, Refusal> {
    let mut text = vec![0; USUAL];
    let length = match write(&mut text) {
        Err(Refusal::NoRoom { needed }) => {
            text.resize(needed, 0);
            write(&mut text)?
        }
        other => other?,
    };
    text.truncate(length);
    Ok(String::from_utf8(text).expect("answers are ASCII"))
}
