//! `oracle days`: the Rust's calendar, day by day, in two digests for each
//! group of years.

use crate::numeric::Numeric;
use crate::raw;
use crate::types::{TextRef, TextSubtype, Value, ValueRef};
use std::fmt::Write as _;
use std::io::{self, Write};

/// 9999-12-31; the first, 0, is -4713-11-24.
const LAST_DAY: i64 = 5373484;

/// The group of a year: its first year.
fn group(year: i64) -> i64 {
    (year.div_euclid(1000) * 1000).max(-4713)
}

/// Two sums over numbers in order, so that a wrong one is seen and not its place.
#[derive(Default)]
struct Digests {
    a: u64,
    b: u64,
}

impl Digests {
    fn take(&mut self, x: i64) {
        let x = u64::try_from(x).expect("digests take no negative number");
        self.a = (self.a * 1000003 + x) % 2147483647;
        self.b = (self.b * 48271 + x) % 2147483629;
    }
}

fn text(t: &str) -> ValueRef<'_> {
    ValueRef::Text(TextRef::new(t, TextSubtype::Text))
}

/// Year, month, day, weekday, day of year, ISO year, ISO week.
fn fields(day: i64) -> [i64; 7] {
    let asked = [text("%Y %m %d %w %j %G %V"), ValueRef::Numeric(Numeric::Integer(day))];
    let Value::Text(answer) = raw::exec_strftime(asked) else {
        panic!("day {day}: strftime gives no text");
    };
    let mut numbers = answer.split(' ').map(|n| n.parse().unwrap());
    [(); 7].map(|_| numbers.next().unwrap())
}

/// The Julian day at noon, by way of a text.
fn found_back(year: i64, month: i64, day: i64, buffer: &mut String) -> i64 {
    let sign = if year < 0 { "-" } else { "" };
    buffer.clear();
    write!(buffer, "{sign}{:04}-{month:02}-{day:02} 12:00", year.abs()).unwrap();
    let Value::Numeric(Numeric::Float(found)) = raw::exec_julianday([text(buffer)]) else {
        panic!("{buffer}: julianday gives no number");
    };
    let found = f64::from(found);
    assert_eq!(found, found.trunc(), "{buffer}: no whole Julian day");
    found as i64
}

pub fn run(mut output: impl Write) -> io::Result<()> {
    let mut digests = Digests::default();
    let mut first_year = group(-4713);
    let mut days = 0;
    let mut buffer = String::new();
    for n in 0..=LAST_DAY {
        let [year, month, day, weekday, day_of_year, iso_year, iso_week] = fields(n);
        if group(year) != first_year {
            writeln!(output, "{first_year} {days} {} {}", digests.a, digests.b)?;
            digests = Digests::default();
            first_year = group(year);
            days = 0;
        }
        let back = found_back(year, month, day, &mut buffer);
        assert_eq!(back, n, "{buffer}: another day found back");
        days += 1;
        for x in [year + 4800, month, day, weekday, day_of_year, iso_year + 4800, iso_week, back] {
            digests.take(x);
        }
    }
    writeln!(output, "{first_year} {days} {} {}", digests.a, digests.b)?;
    output.flush()
}
