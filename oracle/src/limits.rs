//! Where 01 departs from the Rust. The second reading of the Rust's text (see
//! build.rs) asks here at each departure's places, and each has a switch, so
//! that a difference can be put down to its name.

use std::cell::Cell;

/// One bit for each departure, in the order of `NAMES`.
pub type Departures = u8;

pub const NONE: Departures = 0;
pub const ROUND: Departures = 1;
pub const RANGE: Departures = 2;
pub const RENEW: Departures = 4;
pub const DECIMAL: Departures = 8;
pub const EARLY: Departures = 16;
pub const ALL: Departures = 31;

pub const NAMES: [&str; 5] = ["round", "range", "renew", "decimal", "early"];

/// 9999-12-31 23:59:59.999, in milliseconds from noon of -4713-11-24.
const LAST: i64 = 464269060799999;
/// The millisecond of Julian day 1,000,000: from it on `%J` has seven digits.
const EARLY_END: i64 = 86400000000000;

thread_local! {
    static ON: Cell<Departures> = const { Cell::new(ALL) };
    /// The refusal met during a call: 5, 6, or 0 for none.
    static MET: Cell<u8> = const { Cell::new(0) };
}

/// Switches these on and all others off, for the calls that follow.
pub fn switch(on: Departures) {
    ON.set(on);
}

fn on(departure: Departures) -> bool {
    ON.get() & departure != 0
}

/// The refusal met since this was last asked.
pub fn take_met() -> Option<u8> {
    match MET.replace(0) {
        0 => None,
        number => Some(number),
    }
}

/// `round`: what is added to a modifier's milliseconds before they are cut.
pub fn half() -> f64 {
    if on(ROUND) {
        0.5
    } else {
        0.0
    }
}

/// `range`: strftime and timediff have no answer here.
pub fn outside(ms: i64) -> bool {
    on(RANGE) && !(0..=LAST).contains(&ms)
}

/// `renew`: timediff fills both arguments' fields from their milliseconds.
pub fn renews() -> bool {
    on(RENEW)
}

/// `early`: `%J` is refused here, by 6.
pub fn early(ms: i64) -> bool {
    let early = on(EARLY) && ms < EARLY_END;
    if early {
        MET.set(6);
    }
    early
}

/// `decimal`: a number is read, within the limits; one past them is refused by
/// 5. The grammar is that of Rust's own reading.
pub fn decimal(text: &str) -> Result<f64, ()> {
    let number = text.parse().map_err(|_| ())?;
    if on(DECIMAL) && !fits(text.as_bytes()) {
        MET.set(5);
        return Err(());
    }
    Ok(number)
}

/// Whether a text of the grammar is within the limits: D, the digits written
/// without leading zeros, has at most 19, and the last digit's power of ten is
/// -22 to 22. D = 0 always fits, and so do inf, infinity and nan.
fn fits(text: &[u8]) -> bool {
    let text = match text {
        [b'+' | b'-', unsigned @ ..] => unsigned,
        _ => text,
    };
    if text[0].is_ascii_alphabetic() {
        return true;
    }
    let end = text.iter().position(|b| matches!(b, b'e' | b'E'));
    let (written, exponent) = match end {
        Some(end) => (&text[..end], exponent(&text[end + 1..])),
        None => (text, 0),
    };
    let mut digits = 0;
    let mut after_point = 0;
    let mut point = false;
    for &b in written {
        if b == b'.' {
            point = true;
            continue;
        }
        digits += i64::from(digits > 0 || b != b'0');
        after_point += i64::from(point);
    }
    digits == 0 || digits <= 19 && (-22..=22).contains(&(exponent - after_point))
}

/// Its value, or one far past the limits: a text is too short to bring it back.
fn exponent(text: &[u8]) -> i64 {
    let negative = text[0] == b'-';
    let mut value = 0i64;
    for b in text.iter().filter(|b| b.is_ascii_digit()) {
        value = (value * 10 + i64::from(b - b'0')).min(1 << 40);
    }
    if negative {
        -value
    } else {
        value
    }
}

#[cfg(test)]
mod tests {
    use super::*;

    fn read(text: &str) -> (Result<f64, ()>, Option<u8>) {
        (decimal(text), take_met())
    }

    #[test]
    fn within() {
        for text in [
            "0",
            "-0",
            "+.5",
            "5.",
            "1e22",
            "1e-22",
            "0e99999",
            "-0.000e-99999",
            "0000000000000000000000001",
            "1234567890123456789",
            "9999999999999999999e22",
            "0.0000000000000000000001",
            "1.0e23",
            "1e00000000000000000000022",
            "inf",
            "-INFINITY",
            "+nan",
        ] {
            let (number, met) = read(text);
            assert!(number.is_ok() && met.is_none(), "{text}");
        }
    }

    #[test]
    fn past() {
        for text in [
            "12345678901234567890",
            "1.0000000000000000000",
            "1e23",
            "1e-23",
            "1.0e-22",
            "0.00000000000000000000010",
            "10e23",
            "1e99999999999999999999999999999",
        ] {
            assert_eq!(read(text), (Err(()), Some(5)), "{text}");
        }
    }

    #[test]
    fn no_number() {
        for text in ["", "+", ".", "e5", "1e", "1e+", "1 ", "0x1", "infinit", "nanx", "--1"] {
            assert_eq!(read(text), (Err(()), None), "{text}");
        }
    }

    #[test]
    fn switched_off() {
        switch(ALL & !DECIMAL);
        assert_eq!(read("1e23"), (Ok(1e23), None));
        switch(ALL);
    }
}
