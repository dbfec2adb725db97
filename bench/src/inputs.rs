//! The arguments of all calls, prepared beforehand and the same for every side.

use crate::random::Random;

pub struct Inputs {
    /// Time values in the forms that a log has.
    pub texts: Vec<String>,
    /// Time values in full, with three decimals.
    pub stamps: Vec<String>,
    /// As `stamps`, others.
    pub others: Vec<String>,
    /// Unix milliseconds.
    pub ms: Vec<i64>,
    /// The same as seconds.
    pub seconds: Vec<f64>,
    /// The same, without milliseconds.
    pub whole: Vec<i64>,
}

/// Years 0 to 9998: a month more is still in the range.
const LAST_YEAR: i64 = 9998;
/// Unix milliseconds of 0000-01-01 and of the last one before 9999-01-01.
const MS: (i64, i64) = (-62167219200000, 253370764799999);

pub fn inputs(count: usize) -> Inputs {
    let mut r = Random::new(1);
    let mut many = |one: fn(&mut Random) -> String| (0..count).map(|_| one(&mut r)).collect();
    let texts = many(text);
    let stamps = many(stamp);
    let others = many(stamp);
    let ms: Vec<i64> = (0..count).map(|_| r.between(MS.0, MS.1)).collect();
    let seconds = ms.iter().map(|ms| *ms as f64 / 1000.0).collect();
    let whole = ms.iter().map(|ms| ms.div_euclid(1000)).collect();
    Inputs { texts, stamps, others, ms, seconds, whole }
}

/// Half of them in full, the others shorter or with a zone.
fn text(r: &mut Random) -> String {
    let zone = format!("{}{:02}:{:02}", r.pick(&['+', '-']), r.between(0, 14), r.pick(&[0, 30]));
    match r.below(8) {
        0 => date(r),
        1 => format!("{}T{}Z", date(r), time(r)),
        2 => format!("{} {}{zone}", date(r), time(r)),
        3 => format!("{} {}", date(r), time(r)),
        _ => stamp(r),
    }
}

fn stamp(r: &mut Random) -> String {
    format!("{} {}.{:03}", date(r), time(r), r.between(0, 999))
}

/// An existing day.
fn date(r: &mut Random) -> String {
    let (year, month) = (r.between(0, LAST_YEAR), r.between(1, 12));
    let leap = year % 4 == 0 && year % 100 != 0 || year % 400 == 0;
    let days = match month {
        2 => 28 + i64::from(leap),
        4 | 6 | 9 | 11 => 30,
        _ => 31,
    };
    format!("{year:04}-{month:02}-{:02}", r.between(1, days))
}

fn time(r: &mut Random) -> String {
    format!("{:02}:{:02}:{:02}", r.between(0, 23), r.between(0, 59), r.between(0, 59))
}
