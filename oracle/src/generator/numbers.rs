//! Decimals: plain ones, and those at the limits of 01.

use super::edges::{NUMBERS, ZEROS};
use super::random::Random;
use super::values::{blank, word};
use std::io::Write;

/// A decimal that is mostly a Julian day in the range.
pub fn julian_day(r: &mut Random, out: &mut Vec<u8>) {
    match r.weighed(&[40, 40, 10, 10]) {
        0 => write!(out, "{}", r.between(0, 5373484)).unwrap(),
        1 => {
            write!(out, "{}.", r.between(0, 5373484)).unwrap();
            for _ in 0..r.between(1, 12) {
                out.push(r.pick(b"0123456789"));
            }
        }
        2 => tie(r, out),
        _ => near_number(r, 5373484.5, out),
    }
}

/// Mostly seconds that `unixepoch` takes.
pub fn unix_seconds(r: &mut Random, out: &mut Vec<u8>) {
    match r.weighed(&[35, 35, 10, 10, 10]) {
        0 => write!(out, "{}", r.between(-210866760000, 253402300799)).unwrap(),
        1 => {
            write!(out, "{}.", r.between(-210866759999, 253402300799)).unwrap();
            for _ in 0..r.between(1, 7) {
                out.push(r.pick(b"0123456789"));
            }
        }
        2 => near_number(r, -210866760000.0, out),
        3 => near_number(r, 253402300799.0, out),
        _ => near_number(r, 253402300800.0, out),
    }
}

/// A number at a limit, or one step to its side: a unit of the last place of
/// the f64, or of the last digit written.
pub fn near_number(r: &mut Random, limit: f64, out: &mut Vec<u8>) {
    match r.below(6) {
        0 => write!(out, "{limit}").unwrap(),
        1 | 2 => {
            let steps = r.between(-3, 3);
            let near = f64::from_bits((limit.to_bits() as i64 + steps) as u64);
            match r.below(4) {
                0 => write!(out, "{near:e}").unwrap(),
                _ => write!(out, "{near}").unwrap(),
            }
        }
        3 => {
            // Just below, in digits: the last ones decide between two f64.
            let whole = limit.abs().ceil() as i64 - 1;
            let sign = if limit < 0.0 { "-" } else { "" };
            let places = r.between(1, 20 - whole.to_string().len() as i64);
            let half = if limit.fract() == 0.0 { b'9' } else { b'4' };
            write!(out, "{sign}{whole}.").unwrap();
            out.push(half);
            for _ in 1..places {
                out.push(b'9');
            }
            if r.one_in(3) {
                out.pop();
                out.push(r.pick(b"0123456789"));
            }
        }
        4 => halfway(r, limit, out),
        _ => write!(out, "{}", limit + r.pick(&[-1.0, -0.5, -0.001, 0.001, 0.5, 1.0])).unwrap(),
    }
}

/// A Julian day whose nine decimals, or whose milliseconds, end in a half, or
/// that lies between two f64.
pub fn tie(r: &mut Random, out: &mut Vec<u8>) {
    let day = r.between(0, 5373483);
    match r.below(3) {
        0 => {
            // j/1024, j odd, has ten decimals, the last a five.
            let fraction = (2 * r.between(0, 511) + 1) * 9765625;
            write!(out, "{day}.{fraction:010}").unwrap();
        }
        1 => {
            let half_ms = 2 * r.between(0, 86399999) + 1;
            write!(out, "{}", day as f64 + half_ms as f64 / 172800000.0).unwrap();
        }
        _ => {
            let fraction = r.below(1 << 30) as f64 / (1 << 30) as f64;
            halfway(r, day.max(1) as f64 + fraction, out);
        }
    }
}

/// The middle between a number from 1 to 2^52 and the next f64 on either side,
/// cut to 19 digits, so that it reads as the lower one, or one digit more.
pub fn halfway(r: &mut Random, number: f64, out: &mut Vec<u8>) {
    let lower = f64::from_bits(number.abs().to_bits() - r.next() % 2);
    let bits = lower.to_bits();
    // lower = odd / 2^scale - half a unit: the middle is odd / 2^scale.
    let odd = u128::from(2 * (bits % (1 << 52) + (1 << 52)) + 1);
    let scale = 1023 + 53 - (bits >> 52);
    let whole = (odd >> scale).to_string();
    let places = 19 - whole.len() as u32;
    let digits = ((odd * 10u128.pow(places)) >> scale) + u128::from(r.next() % 2);
    let digits = digits.to_string();
    let sign = if number < 0.0 { "-" } else { "" };
    write!(out, "{sign}{}.{}", &digits[..whole.len()], &digits[whole.len()..]).unwrap();
}

/// Any decimal, now and then with blanks around it.
pub fn spaced_number(r: &mut Random, out: &mut Vec<u8>) {
    if r.one_in(10) {
        out.push(blank(r));
    }
    number(r, out);
    if r.one_in(10) {
        out.push(blank(r));
    }
}

/// Decimals around the limits of 01: 19 digits, powers -22 to 22.
pub fn number(r: &mut Random, out: &mut Vec<u8>) {
    out.extend(r.pick(&["", "", "", "+", "-"]).bytes());
    match r.weighed(&[30, 25, 8, 7, 5, 5]) {
        0 => {
            // Digits with a point somewhere.
            let before = r.between(0, 12);
            let after = r.between(i64::from(before == 0), 20 - before);
            digits(r, before, out);
            if after > 0 || r.one_in(4) {
                out.push(b'.');
            }
            digits(r, after, out);
        }
        1 => {
            // The last digit's power at or near a limit, or one that makes a small number.
            let count = r.pick(&[1, 1, 2, 5, 10, 15, 17, 18, 19, 19, 20]);
            let after = if r.one_in(2) { r.between(0, count) } else { 0 };
            let power =
                r.pick(&[-23, -22, -21, -10, 0, 10, 21, 22, 23, 6 - count, 7 - count, 9 - count]);
            digits(r, count - after, out);
            if after > 0 {
                out.push(b'.');
                digits(r, after, out);
            }
            let exponent = power + after;
            let e = r.pick(&["e", "E"]);
            let plus = if exponent >= 0 && r.one_in(2) { "+" } else { "" };
            if r.one_in(8) && exponent >= 0 {
                write!(out, "{e}{plus}000{exponent}").unwrap();
            } else {
                write!(out, "{e}{plus}{exponent}").unwrap();
            }
        }
        2 => out.extend(r.pick(ZEROS).bytes()),
        3 => word(r, &["inf", "infinity", "nan", "INF", "NaN", "Infinity"], out),
        4 => {
            // Two hundred digits, or leading zeros and few.
            let zeros = r.one_in(2);
            for _ in 0..r.between(20, 200) {
                out.push(if zeros { b'0' } else { r.pick(b"0123456789") });
            }
            digits(r, 7, out);
        }
        _ => out.extend(r.pick(NUMBERS).bytes()),
    }
}

/// Random digits; the first is no zero.
pub fn digits(r: &mut Random, count: i64, out: &mut Vec<u8>) {
    for i in 0..count {
        out.push(if i == 0 { r.pick(b"123456789") } else { r.pick(b"0123456789") });
    }
}

#[cfg(test)]
#[test]
fn halfway_reads_as_a_neighbour() {
    let mut r = Random::new(1);
    for number in [1.5, 2460000.25, 5373484.5, -210866760000.0, 1.2897e11, 4.6427e14] {
        for _ in 0..20 {
            let mut out = Vec::new();
            halfway(&mut r, number, &mut out);
            let text = String::from_utf8(out).unwrap();
            assert_eq!(text.bytes().filter(u8::is_ascii_digit).count(), 19, "{text}");
            let read: f64 = text.parse().unwrap();
            assert!((read.to_bits() as i64 - number.to_bits() as i64).abs() <= 1, "{text}");
        }
    }
}
