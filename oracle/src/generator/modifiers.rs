//! Modifiers, single ones and chains.

use super::edges::MODIFIERS;
use super::numbers::near_number;
use super::random::Random;
use super::values::{blank, fraction, good_time, month_day, word, write_date, zone};
use std::io::Write;

/// How many modifiers: mostly few, up to one past the sixteen.
pub fn chain(r: &mut Random) -> i64 {
    match r.weighed(&[10, 35, 24, 14, 12, 3, 1, 1]) {
        n @ 0..=3 => n as i64,
        4 => r.between(4, 8),
        5 => r.between(9, 15),
        6 => 16,
        _ => 17,
    }
}

pub fn modifier(r: &mut Random, out: &mut Vec<u8>) {
    match r.weighed(&[280, 120, 150, 110, 90, 110, 80, 90, 8, 16]) {
        0 => units(r, out),
        1 => {
            sign(r, out);
            let year = r.pick(&[0, 0, 0, 1, 1, 4, 10, 100, 400, 1000]);
            let month = r.between(0, 11);
            let day = r.between(0, 30);
            write!(out, "{year:04}-{month:02}-{day:02}").unwrap();
            if r.one_in(2) {
                out.extend(r.pick(&[" ", " ", " ", "  ", " \x0b"]).bytes());
                modifier_time(r, out);
            }
            floor(r, 4, out);
        }
        2 => {
            sign(r, out);
            modifier_time(r, out);
        }
        3 => {
            word(r, &["start of "], out);
            word(r, &["day", "month", "year"], out);
        }
        4 => {
            word(r, &["weekday "], out);
            small_number(r, out);
        }
        5 => word(r, &["ceiling", "floor"], out),
        6 => word(r, &["localtime", "utc"], out),
        7 => word(r, &["subsec", "subsecond"], out),
        8 => word(r, &["auto", "julianday", "unixepoch"], out),
        _ => near_miss(r, out),
    }
}

pub fn sign(r: &mut Random, out: &mut Vec<u8>) {
    out.extend(r.pick(&["+", "-", "+", "-", ""]).bytes());
}

/// A modifier's time, seldom with a zone.
pub fn modifier_time(r: &mut Random, out: &mut Vec<u8>) {
    match r.below(30) {
        0 => out.extend(r.pick(&["24:00", "24:59", "10:00Z", "10:00:00.5 z"]).bytes()),
        1 => {
            good_time(r, out);
            zone(r, out);
        }
        2 => {
            // Fractions whose product is not whole.
            write!(out, "00:00:{:02}.{:03}", r.below(60), r.below(1000)).unwrap();
        }
        _ => good_time(r, out),
    }
}

/// 0 to 6, and a little around it.
pub fn small_number(r: &mut Random, out: &mut Vec<u8>) {
    match r.below(25) {
        0 => out.extend(
            r.pick(&[
                "7",
                "-1",
                "6.5",
                "6.0",
                "-0",
                "+3",
                "3e0",
                "0.4e1",
                "06",
                "nan",
                "",
                "6.999999999999999999",
            ])
            .bytes(),
        ),
        1 => {
            out.push(blank(r));
            write!(out, "{}", r.below(7)).unwrap();
            out.push(blank(r));
        }
        _ => write!(out, "{}", r.below(7)).unwrap(),
    }
}

const UNITS: [&str; 6] = ["day", "hour", "minute", "second", "month", "year"];

/// A number and a unit that keep a value near where it was.
pub fn units(r: &mut Random, out: &mut Vec<u8>) {
    let unit = r.below(6);
    let most = [400, 10000, 600000, 40000000, 30, 5][unit];
    if r.one_in(30) {
        return limited_units(r, out);
    }
    sign(r, out);
    match r.below(4) {
        0 => {
            let number = r.between(0, most);
            write!(out, "{number}.").unwrap();
            fraction(r, out);
            if out.iter().rev().take_while(|b| b.is_ascii_digit()).count() > 15 {
                // Keep it within 19 digits.
                let point = out.iter().rposition(|&b| b == b'.').unwrap();
                out.truncate(point + 12);
            }
        }
        1 => write!(out, "{}", r.between(0, 3)).unwrap(),
        _ => write!(out, "{}", r.between(0, most)).unwrap(),
    }
    out.push(b' ');
    word(r, &[UNITS[unit]], out);
    if r.one_in(2) {
        out.push(b's');
    }
    if r.one_in(40) {
        out.extend(r.pick(&[" ", "\r", "\x0b", " and more", "  ago", "\x1c"]).bytes());
    }
    floor(r, if unit < 4 { 10 } else { 4 }, out);
}

/// What a month shift leaves past the month's end floor takes away, once in so
/// many.
pub fn floor(r: &mut Random, times: usize, out: &mut Vec<u8>) {
    if r.one_in(times) {
        out.extend(b"\tfloor");
    }
}

/// A unit with a number at its limit, and mostly as much back.
pub fn limited_units(r: &mut Random, out: &mut Vec<u8>) {
    const LIMITS: [f64; 6] = [5373485.0, 1.2897e11, 7.7379e12, 4.6427e14, 176546.0, 14713.0];
    const MS: [i64; 4] = [86400000, 3600000, 60000, 1000];
    let unit = r.below(6);
    let (there, back) = r.pick(&[("+", "-"), ("-", "+"), ("", "-")]);
    out.extend(there.bytes());
    near_number(r, LIMITS[unit], out);
    write!(out, " {}s", UNITS[unit]).unwrap();
    match unit {
        _ if r.one_in(5) => {}
        // Months and years have left the range. Whether the number was refused is
        // seen by one that is refused by another number.
        4 | 5 => out.extend(b"\t1e99 days"),
        _ => {
            // Hours reach furthest, then minutes, then seconds.
            let other = if unit == 0 { 0 } else { r.between(1, unit as i64) as usize };
            let number = LIMITS[unit] as i64 * MS[unit] / MS[other] - r.between(1, 3);
            write!(out, "\t{back}{number} {}s", UNITS[other]).unwrap();
        }
    }
}

/// A time value at one end of the range, and a unit that leads to the other.
pub fn across(r: &mut Random, out: &mut Vec<u8>) {
    let unit = r.below(6);
    let length = [5373484.5, 128963628.0, 7737817680.0, 464269060800.0, 176545.0, 14712.0][unit];
    if r.one_in(2) {
        out.extend(r.pick(&["0", "-4713-11-24 12:00", "-4713-11-24 12:00:00.001"]).bytes());
        out.extend(b"\t+");
    } else {
        out.extend(r.pick(&["9999-12-31 23:59:59.999", "9999-12-31", "9999-12-31 24:00"]).bytes());
        out.extend(b"\t-");
    }
    near_number(r, length, out);
    write!(out, " {}s", UNITS[unit]).unwrap();
}

/// A time value before the range, and modifiers that lead into it.
pub fn from_before(r: &mut Random, out: &mut Vec<u8>) {
    let year = r.pick(&[-4713, -4713, -4713, -4713, -4714, -5000, -9999]);
    let (month, day) = month_day(r);
    write_date(year, month, day, out);
    if !r.one_in(3) {
        out.push(b' ');
        good_time(r, out);
    }
    if year == -9999 && r.one_in(2) {
        // Only from here the limits of months and years lie within the range.
        let (limit, unit) = r.pick(&[(176546.0, "months"), (14713.0, "years")]);
        out.extend(b"\t+");
        near_number(r, limit, out);
        write!(out, " {unit}").unwrap();
    } else if year < -4713 {
        write!(out, "\t+{} years", -year - r.between(0, 4713)).unwrap();
    }
    for _ in 0..r.between(0, 2) {
        out.push(b'\t');
        modifier(r, out);
    }
    write!(out, "\t+{} {}", r.between(1, 400), r.pick(&["days", "months", "years"])).unwrap();
}

pub fn near_miss(r: &mut Random, out: &mut Vec<u8>) {
    out.extend(r.pick(MODIFIERS).bytes());
}
