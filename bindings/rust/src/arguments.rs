//! What a call is given.

use crate::raw;
use crate::Refusal;

/// Clock and zone offset of a call. Nothing else of the surroundings is looked at.
#[derive(Clone, Copy, Debug, PartialEq, Eq, Hash)]
pub struct Setting {
    /// What `now` is: milliseconds from 1970-01-01 UTC, 0 to 253402300799999.
    pub clock_ms: u64,
    /// For `localtime` and `utc`: seconds east, -86399 to 86399.
    pub offset_s: i64,
}

/// A time value.
#[derive(Clone, Copy, Debug, PartialEq)]
pub enum Value<'a> {
    /// None: the setting's clock, as `now`. For [`timediff`](crate::timediff) it is null.
    Absent,
    /// SQL's null; every call with it is refused by [`Refusal::Null`], or by a test that comes before.
    Null,
    /// A date, a time, both, `now` or a number, written out.
    Text(&'a [u8]),
    /// A number: a Julian day, or with `unixepoch` or `auto` seconds since 1970.
    Integer(i64),
    /// A number likewise. NaN is read as the text `nan`.
    Real(f64),
}

impl<'a> From<&'a str> for Value<'a> {
    fn from(text: &'a str) -> Value<'a> {
        Value::Text(text.as_bytes())
    }
}

impl<'a> From<&'a String> for Value<'a> {
    fn from(text: &'a String) -> Value<'a> {
        Value::Text(text.as_bytes())
    }
}

impl<'a> From<&'a [u8]> for Value<'a> {
    fn from(text: &'a [u8]) -> Value<'a> {
        Value::Text(text)
    }
}

impl From<i32> for Value<'_> {
    fn from(number: i32) -> Self {
        Value::Integer(number.into())
    }
}

impl From<i64> for Value<'_> {
    fn from(number: i64) -> Self {
        Value::Integer(number)
    }
}

impl From<f64> for Value<'_> {
    fn from(number: f64) -> Self {
        Value::Real(number)
    }
}

/// A time value in the archive's form.
pub(crate) struct Parts<'a> {
    pub given: u32,
    pub integer: i64,
    pub real: f64,
    pub bytes: &'a [u8],
}

impl<'a> Value<'a> {
    pub(crate) fn parts(self) -> Parts<'a> {
        let none = Parts { given: raw::NULL, integer: 0, real: 0.0, bytes: &[] };
        match self {
            Value::Absent => Parts { given: raw::ABSENT, ..none },
            Value::Null => none,
            Value::Text(bytes) => Parts { given: raw::BYTES, bytes, ..none },
            Value::Integer(integer) => Parts { given: raw::INTEGER, integer, ..none },
            Value::Real(real) => Parts { given: raw::REAL, real, ..none },
        }
    }
}

/// No modifiers, for calls that have none: of a bare `&[]` the compiler could not tell what it is empty of.
pub const NONE: &[&str] = &[];

/// Room for the modifiers of most calls.
const FEW: usize = 128;
/// Sixteen modifiers of 255 bytes, each with its zero byte. Longer ones are refused in any case.
const MOST: usize = 16 * 256;

/// Lays the modifiers out, each ended by a zero byte, and hands them over. A zero byte inside one would make it two: it is refused by
/// Shape, the first refusal of all.
pub(crate) fn laid_out<M: AsRef<[u8]>, T>(
    modifiers: &[M],
    call: impl FnOnce(&[u8]) -> Result<T, Refusal>,
) -> Result<T, Refusal> {
    if modifiers.is_empty() {
        return call(&[]);
    }
    let mut few = [0; FEW];
    match lay_out(modifiers, &mut few)? {
        Some(length) => call(&few[..length]),
        None => {
            let mut most = [0; MOST];
            let length = lay_out(modifiers, &mut most)?.ok_or(Refusal::Shape)?;
            call(&most[..length])
        }
    }
}

/// How many bytes they take, or none without room. The room is zero beforehand.
fn lay_out<M: AsRef<[u8]>>(modifiers: &[M], room: &mut [u8]) -> Result<Option<usize>, Refusal> {
    let mut length = 0;
    for modifier in modifiers {
        let modifier = modifier.as_ref();
        if modifier.contains(&0) {
            return Err(Refusal::Shape);
        }
        let end = length + modifier.len();
        if end >= room.len() {
            return Ok(None);
        }
        room[length..end].copy_from_slice(modifier);
        length = end + 1;
    }
    Ok(Some(length))
}
