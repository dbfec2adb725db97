//! `oracle limits`: the calls of the port's program `test_limits`, and what that
//! must write. A line names any call of a public function, also those that no
//! line of the program format can hold. README.md has the form.

mod list;

use crate::lines::{self, Function};
use crate::numeric::{NonNan, Numeric};
use crate::types::{Value, ValueRef};
use crate::{limits, shims};
pub use list::list;
use std::io::{self, BufRead, Write};

/// The whole buffer of the program, of which a call is lent the front.
const BUFFER: usize = 16384;

struct Call {
    clock: u64,
    offset: i64,
    /// How many bytes the call is lent.
    room: usize,
    function: Function,
    /// strftime's.
    format: Vec<u8>,
    value: TimeValue,
    /// timediff's.
    second: TimeValue,
    /// As they lie in memory, each with its zero byte; timediff has none.
    modifiers: Vec<u8>,
}

/// What is given, and the bytes beside it, which only `Given::Bytes` means.
struct TimeValue {
    given: Given,
    bytes: Vec<u8>,
}

#[derive(Clone, Copy)]
enum Given {
    Absent,
    Null,
    Bytes,
    Integer(i64),
    /// By its bits.
    Real(u64),
}

enum Answer {
    Text(Vec<u8>),
    Integer(i64),
    Real(u64),
    Refused(u8),
    NoRoom(usize),
}

/// What the program must write for each line. A call that keeps its promises
/// touches no byte but the answer's.
pub fn answers(input: impl BufRead, mut output: impl Write) -> io::Result<()> {
    let mut out = Vec::new();
    for line in input.split(b'\n') {
        out.clear();
        match Call::read(&line?) {
            Some(call) => {
                call.answer().write(&mut out);
                out.extend(b"\tkept");
            }
            None => out.extend(b"bad line"),
        }
        out.push(b'\n');
        output.write_all(&out)?;
    }
    output.flush()
}

impl Call {
    /// 2, 3 and 4 over all arguments, then the Rust by 01, then 7.
    fn answer(&self) -> Answer {
        if self.misshapen() {
            return Answer::Refused(2);
        }
        if !self.all_bytes().iter().all(|bytes| bytes.is_ascii()) {
            return Answer::Refused(3);
        }
        if self.clock > lines::CLOCK_LIMIT || self.offset.unsigned_abs() > lines::OFFSET_LIMIT {
            return Answer::Refused(4);
        }
        shims::set(self.clock, self.offset as i32);
        match lines::ruled(limits::ALL, self.function, self.values()) {
            Err(number) => Answer::Refused(number),
            Ok(Value::Null) => Answer::Refused(1),
            Ok(Value::Text(text)) if text.len() > self.room => Answer::NoRoom(text.len()),
            Ok(Value::Text(text)) => Answer::Text(text.into_bytes()),
            Ok(Value::Numeric(Numeric::Integer(i))) => Answer::Integer(i),
            Ok(Value::Numeric(Numeric::Float(x))) => Answer::Real(f64::from(x).to_bits()),
        }
    }

    fn misshapen(&self) -> bool {
        let long = |v: &[u8]| v.len() > lines::VALUE_LIMIT;
        let modifiers = self.modifiers();
        self.format.len() > lines::FORMAT_LIMIT
            || long(self.value.meant())
            || long(self.second.meant())
            || self.modifiers.last().is_some_and(|&b| b != 0)
            || modifiers.len() > lines::MODIFIERS_LIMIT
            || modifiers.into_iter().any(long)
    }

    fn all_bytes(&self) -> [&[u8]; 4] {
        [&self.format, self.value.meant(), self.second.meant(), &self.modifiers]
    }

    /// "The empty buffer holds none; a lone zero byte is one empty modifier." One
    /// that is not ended is one too.
    fn modifiers(&self) -> Vec<&[u8]> {
        let ended = self.modifiers.strip_suffix(&[0]);
        match ended.unwrap_or(&self.modifiers) {
            [] if ended.is_none() => Vec::new(),
            bytes => bytes.split(|&b| b == 0).collect(),
        }
    }

    /// What the Rust is asked.
    fn values(&self) -> Vec<ValueRef<'_>> {
        match self.function {
            // An absent value is null here: "which takes exactly two".
            Function::Timediff => [&self.value, &self.second]
                .map(|v| if let Given::Absent = v.given { ValueRef::Null } else { v.asked() })
                .to_vec(),
            Function::Strftime => {
                let format = [lines::value(&self.format), self.value.asked()];
                format.into_iter().chain(self.modifiers().into_iter().map(lines::value)).collect()
            }
            _ => {
                let value = [self.value.asked()];
                value.into_iter().chain(self.modifiers().into_iter().map(lines::value)).collect()
            }
        }
    }

    /// The fields of a line; None if it is no line of a list.
    fn read(line: &[u8]) -> Option<Call> {
        let fields: Vec<&[u8]> = line.split(|&b| b == b'\t').collect();
        let [clock, offset, room, name, rest @ ..] = &fields[..] else { return None };
        let function = lines::function(name)?;
        let (mut format, mut second, mut modifiers) = (Vec::new(), TimeValue::none(), Vec::new());
        let value = match (function, rest) {
            (Function::Timediff, [first, last]) => {
                second = TimeValue::read(last)?;
                first
            }
            (Function::Strftime, [field, value, last]) => {
                format = unescaped(field)?;
                modifiers = unescaped(last)?;
                value
            }
            (Function::Timediff | Function::Strftime, _) => return None,
            (_, [value, last]) => {
                modifiers = unescaped(last)?;
                value
            }
            _ => return None,
        };
        Some(Call {
            clock: whole(clock)?,
            offset: signed(offset)?,
            room: usize::try_from(whole(room)?).ok().filter(|&room| room <= BUFFER)?,
            function,
            format,
            value: TimeValue::read(value)?,
            second,
            modifiers,
        })
    }

    /// The line that reads as this call.
    fn line(&self) -> Vec<u8> {
        let mut out = Vec::new();
        let name = name(self.function);
        write!(out, "{}\t{}\t{}\t{name}\t", self.clock, self.offset, self.room).unwrap();
        if self.function == Function::Strftime {
            escape(&self.format, &mut out);
            out.push(b'\t');
        }
        self.value.write(&mut out);
        out.push(b'\t');
        if self.function == Function::Timediff {
            self.second.write(&mut out);
        } else {
            escape(&self.modifiers, &mut out);
        }
        out
    }
}

impl TimeValue {
    /// A second value where there is none.
    fn none() -> TimeValue {
        TimeValue { given: Given::Absent, bytes: Vec::new() }
    }

    /// The bytes that are a time value: those beside another kind are none.
    fn meant(&self) -> &[u8] {
        if let Given::Bytes = self.given {
            &self.bytes
        } else {
            &[]
        }
    }

    fn asked(&self) -> ValueRef<'_> {
        match self.given {
            // "absent (read as `now`; that modifiers then apply is added ..)"
            Given::Absent => lines::value(b"now"),
            Given::Null => ValueRef::Null,
            Given::Bytes => lines::value(&self.bytes),
            Given::Integer(i) => ValueRef::Numeric(Numeric::Integer(i)),
            Given::Real(bits) => match NonNan::new(f64::from_bits(bits)) {
                Some(x) => ValueRef::Numeric(Numeric::Float(x)),
                // No value of the Rust's is a NaN: it is read like the text.
                None => lines::value(b"nan"),
            },
        }
    }

    fn read(field: &[u8]) -> Option<TimeValue> {
        if let [b'b', bytes @ ..] = field {
            return Some(TimeValue { given: Given::Bytes, bytes: unescaped(bytes)? });
        }
        let end = field.iter().position(|&b| b == b';').unwrap_or(field.len());
        let given = match &field[..end] {
            b"absent" => Given::Absent,
            b"null" => Given::Null,
            [b'i', number @ ..] => Given::Integer(signed(number)?),
            [b'r', digits @ ..] if digits.len() == 16 => Given::Real(hex(digits)?),
            _ => return None,
        };
        Some(TimeValue { given, bytes: unescaped(field.get(end + 1..).unwrap_or_default())? })
    }

    fn write(&self, out: &mut Vec<u8>) {
        match self.given {
            Given::Absent => out.extend(b"absent"),
            Given::Null => out.extend(b"null"),
            Given::Bytes => out.push(b'b'),
            Given::Integer(i) => write!(out, "i{i}").unwrap(),
            Given::Real(bits) => write!(out, "r{bits:016x}").unwrap(),
        }
        if !matches!(self.given, Given::Bytes) && !self.bytes.is_empty() {
            out.push(b';');
        }
        escape(&self.bytes, out);
    }
}

impl Answer {
    fn write(&self, out: &mut Vec<u8>) {
        match self {
            Answer::Text(text) => {
                write!(out, "text {}\t", text.len()).unwrap();
                escape(text, out);
            }
            Answer::Integer(i) => write!(out, "integer {i}").unwrap(),
            Answer::Real(bits) => write!(out, "real {bits:016x}").unwrap(),
            Answer::Refused(number) => write!(out, "refused {number}").unwrap(),
            Answer::NoRoom(length) => write!(out, "no room {length}").unwrap(),
        }
    }
}

fn name(function: Function) -> &'static str {
    match function {
        Function::Date => "date",
        Function::Time => "time",
        Function::Datetime => "datetime",
        Function::Julianday => "julianday",
        Function::Unixepoch => "unixepoch",
        Function::Strftime => "strftime",
        Function::Timediff => "timediff",
    }
}

/// One or more digits, of a value of 64 bits.
fn whole(digits: &[u8]) -> Option<u64> {
    let good = digits.iter().all(u8::is_ascii_digit);
    std::str::from_utf8(digits).ok().filter(|_| good)?.parse().ok()
}

/// The same, with a minus allowed.
fn signed(number: &[u8]) -> Option<i64> {
    match number.strip_prefix(b"-") {
        Some(digits) => 0i64.checked_sub_unsigned(whole(digits)?),
        None => whole(number)?.try_into().ok(),
    }
}

/// Small hex digits, at most 16 of them.
fn hex(digits: &[u8]) -> Option<u64> {
    digits.iter().try_fold(0, |number, b| {
        let digit = match b {
            b'0'..=b'9' => b - b'0',
            b'a'..=b'f' => b - b'a' + 10,
            _ => return None,
        };
        Some(number * 16 + u64::from(digit))
    })
}

/// Bytes below 32, above 126 and the backslash are a backslash and two digits.
fn escape(bytes: &[u8], out: &mut Vec<u8>) {
    for &b in bytes {
        match b {
            b'\\' | ..=31 | 127.. => write!(out, "\\{b:02x}").unwrap(),
            _ => out.push(b),
        }
    }
}

fn unescaped(mut field: &[u8]) -> Option<Vec<u8>> {
    let mut bytes = Vec::new();
    while let [first, rest @ ..] = field {
        field = rest;
        if *first != b'\\' {
            bytes.push(*first);
            continue;
        }
        bytes.push(hex(field.get(..2)?)? as u8);
        field = &field[2..];
    }
    Some(bytes)
}

#[cfg(test)]
mod tests {
    use super::*;

    fn answered(line: &str) -> String {
        let mut out = Vec::new();
        answers(line.as_bytes(), &mut out).unwrap();
        String::from_utf8(out).unwrap()
    }

    #[test]
    fn answers_of_every_kind() {
        for (line, answer) in [
            ("0\t0\t10\tdate\tabsent\t", "text 10\t1970-01-01\tkept"),
            ("0\t0\t9\tdate\tabsent;x\\80\t+1 day\\00", "no room 10\tkept"),
            ("0\t0\t0\tjulianday\ti2\t", "real 4000000000000000\tkept"),
            ("0\t0\t0\tunixepoch\tb1969-12-31 23:59:59.5\t", "integer -1\tkept"),
            ("0\t0\t0\tunixepoch\tnull\tsubsec", "refused 2\tkept"),
            ("0\t0\t0\tunixepoch\tnull\t\\00\\80\\00", "refused 3\tkept"),
            ("0\t-86400\t0\tunixepoch\tnull\t", "refused 4\tkept"),
            ("0\t0\t0\ttimediff\tabsent\tb1e99", "refused 1\tkept"),
            ("0\t0\t0\ttimediff\tb1e99\tabsent", "refused 5\tkept"),
            ("0\t0\t0\tstrftime\t%J\ti999999\t", "refused 6\tkept"),
            ("0\t0\t9\tstrftime\t\\5c\\00 %%\tr4142c6fc00000000\t", "text 4\t\\5c\\00 %\tkept"),
            ("0\t0\t9\tdate\tr7ff8000000000000\tunixepoch\\00", "refused 1\tkept"),
            ("0\t0\t16385\tdate\tnull\t", "bad line"),
            ("0\t0\t0\tdate\ti9223372036854775808\t", "bad line"),
            ("0\t0\t0\tdate\tr0\t", "bad line"),
            ("0\t0\t0\tdate\tabsent", "bad line"),
            ("0\t0\t0\tdate\tb\\8\t", "bad line"),
            ("", "bad line"),
        ] {
            assert_eq!(answered(&format!("{line}\n")), format!("{answer}\n"), "{line}");
        }
    }

    #[test]
    fn a_line_reads_as_its_call() {
        for line in [
            "18446744073709551615\t-9223372036854775808\t16384\tdatetime\ti-5;\\ff\\5c;\t\\00\\00",
            "1\t2\t3\tstrftime\t%\\0a\tr8000000000000000\ta\\00b",
            "1\t2\t3\ttimediff\tb;\tnull;;",
        ] {
            assert_eq!(Call::read(line.as_bytes()).unwrap().line(), line.as_bytes());
        }
    }
}
