//! Time values: dates, times, zones, words.

use super::edges::TIME_VALUES;
use super::numbers::julian_day;
use super::random::Random;
use super::stamps::Stamp;
use std::io::Write;

pub fn time_value(r: &mut Random, out: &mut Vec<u8>) {
    let start = out.len();
    match r.weighed(&[40, 20, 8, 5, 12, 2, 8, 3, 2]) {
        0 => {
            date(r, out);
            separator(r, out);
            time(r, out);
            zone(r, out);
        }
        1 => date(r, out),
        2 => {
            time(r, out);
            zone(r, out);
        }
        3 => word(r, &["now"], out),
        4 => julian_day(r, out),
        5 => word(r, &["subsec", "subsecond"], out),
        6 => edge(r, out),
        7 => {
            // Blanks before or behind.
            if r.one_in(3) {
                out.push(blank(r));
            }
            plain_value(r, out);
            while r.one_in(2) {
                out.push(blank(r));
            }
        }
        _ => {
            // Near 255 bytes.
            let size = r.pick(&[253, 254, 255, 255, 255, 256]);
            match r.below(3) {
                0 => {
                    date(r, out);
                    out.resize(start + size, b' ');
                }
                1 => {
                    out.extend(b"2024-02-29 12:34:56.");
                    while out.len() - start < size {
                        out.push(r.pick(b"0123456789"));
                    }
                }
                _ => {
                    while out.len() - start < size - 7 {
                        out.push(b'0');
                    }
                    out.extend(b"2460000");
                }
            }
        }
    }
}

/// Dates and times that read, in the range.
pub fn plain_value(r: &mut Random, out: &mut Vec<u8>) {
    match r.weighed(&[50, 25, 15, 5, 5]) {
        0 => {
            date(r, out);
            out.push(b' ');
            good_time(r, out);
        }
        1 => date(r, out),
        2 => Stamp::any(r).write(r, out),
        3 => {
            let day = r.between(0, 5373484);
            write!(out, "{day}.{}", r.below(1000)).unwrap();
        }
        _ => out.extend(b"now"),
    }
}

/// Texts that a list of edges would hold.
pub fn edge(r: &mut Random, out: &mut Vec<u8>) {
    out.extend(r.pick(TIME_VALUES).bytes());
}

pub fn date(r: &mut Random, out: &mut Vec<u8>) {
    let year = year(r);
    let (month, day) = month_day(r);
    write_date(year, month, day, out);
}

pub fn write_date(year: i64, month: i64, day: i64, out: &mut Vec<u8>) {
    let sign = if year < 0 { "-" } else { "" };
    write!(out, "{sign}{:04}-{month:02}-{day:02}", year.abs()).unwrap();
}

pub fn year(r: &mut Random) -> i64 {
    match r.weighed(&[40, 25, 10, 12, 12, 1]) {
        0 => r.between(1990, 2030),
        1 => r.between(0, 9999),
        2 => r.between(-4712, -1),
        // Every fourth and every hundredth year.
        3 => 100 * r.between(-47, 99) + r.pick(&[0, 0, -1, 1, 4]),
        4 => r.pick(&[
            0, 1, 4, 100, 400, 1582, 1600, 1900, 1969, 1970, 1999, 2000, 2001, 2100, 2400, 9996,
            9998, 9999, -1, -4, -100, -400, -4712, -4713,
        ]),
        _ => r.pick(&[-4714, -4800, -9999]),
    }
}

/// Often the last or first days of a month, also days that it has not.
pub fn month_day(r: &mut Random) -> (i64, i64) {
    match r.weighed(&[40, 35, 10, 10, 5]) {
        0 => (r.between(1, 12), r.between(1, 28)),
        1 => (r.between(1, 12), r.between(28, 31)),
        2 => (r.between(1, 12), 1),
        3 => r.pick(&[(12, 31), (1, 1), (12, 30), (12, 29), (12, 28), (1, 2), (1, 3), (1, 4)]),
        _ => (2, r.between(27, 31)),
    }
}

/// What stands between date and time.
pub fn separator(r: &mut Random, out: &mut Vec<u8>) {
    match r.weighed(&[70, 20, 9, 1]) {
        0 => out.push(b' '),
        1 => out.push(b'T'),
        2 => out.extend(r.pick(&["", "TT", "  ", " T ", "T ", "\r", "\x0c"]).bytes()),
        _ => out.push(r.pick(&[b't', b'_', 11, 28, 31])),
    }
}

pub fn time(r: &mut Random, out: &mut Vec<u8>) {
    if !r.one_in(15) {
        return good_time(r, out);
    }
    let hour = r.pick(&[0, 23, 24, 24, 24, 24, 25, 99]);
    let minute = r.pick(&[0, 0, 0, 0, 59, 60]);
    let second = r.pick(&[0, 0, 0, 0, 59, 60]);
    write!(out, "{hour:02}:{minute:02}:{second:02}").unwrap();
}

/// HH:MM[:SS[.F]] that reads.
pub fn good_time(r: &mut Random, out: &mut Vec<u8>) {
    let hour = match r.below(6) {
        0 => r.pick(&[0, 11, 12, 13, 23]),
        _ => r.between(0, 23),
    };
    let minute = match r.below(6) {
        0 => r.pick(&[0, 59]),
        _ => r.between(0, 59),
    };
    write!(out, "{hour:02}:{minute:02}").unwrap();
    if r.one_in(4) {
        return;
    }
    let second = match r.below(5) {
        0 => r.pick(&[0, 59]),
        _ => r.between(0, 59),
    };
    write!(out, ":{second:02}").unwrap();
    if r.one_in(2) {
        out.push(b'.');
        fraction(r, out);
    }
}

/// The digits after the point: up to twelve, seldom two hundred.
pub fn fraction(r: &mut Random, out: &mut Vec<u8>) {
    let count = match r.weighed(&[60, 30, 9, 1]) {
        0 => r.between(1, 3),
        1 => r.between(4, 12),
        2 => {
            // Halves of a millisecond, and what is cut to .999.
            let texts =
                ["0625", "0005", "0015", "9995", "9994", "9999", "99949", "4995", "500", "001"];
            return out.extend(r.pick(&texts).bytes());
        }
        _ => r.between(190, 210),
    };
    for _ in 0..count {
        out.push(r.pick(b"0123456789"));
    }
}

pub fn zone(r: &mut Random, out: &mut Vec<u8>) {
    if !r.one_in(4) {
        return;
    }
    while r.one_in(5) {
        out.push(blank(r));
    }
    match r.below(10) {
        0 => out.push(b'Z'),
        1 => out.push(b'z'),
        2 => out
            .extend(r.pick(&["+14:59", "-14:59", "-00:00", "+00:00", "+15:00", "-14:60"]).bytes()),
        _ => {
            let sign = r.pick(&['+', '-']);
            let hour = r.between(0, 14);
            let minute = r.pick(&[0, 0, 30, 45, 59, 1]);
            write!(out, "{sign}{hour:02}:{minute:02}").unwrap();
        }
    }
    while r.one_in(6) {
        out.push(blank(r));
    }
}

/// Mostly the blank; 12 and 13 are whitespace everywhere, 11 in modifiers only,
/// 28 to 31 nowhere. 9 and 10 cannot stand inside a field of a line.
pub fn blank(r: &mut Random) -> u8 {
    if r.one_in(20) {
        r.pick(&[11, 28, 29, 30, 31])
    } else {
        r.pick(&[32, 32, 32, 32, 12, 13])
    }
}

/// One of these words in any mixture of cases, mostly as it stands.
pub fn word(r: &mut Random, words: &[&str], out: &mut Vec<u8>) {
    let word = r.pick(words);
    let any_case = r.one_in(4);
    for b in word.bytes() {
        out.push(if any_case && r.one_in(2) { b.to_ascii_uppercase() } else { b });
    }
}
