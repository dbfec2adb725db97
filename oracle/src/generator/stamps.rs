//! Time values by their fields, so that one can stand near another.

use super::random::Random;
use super::values::{month_day, write_date, year};
use std::io::Write;

/// A time value by its fields; the day may run past its month.
#[derive(Clone, Copy)]
pub struct Stamp {
    year: i64,
    month: i64,
    day: i64,
    /// Of the day.
    ms: i64,
}

const DAY_MS: i64 = 86400000;

impl Stamp {
    pub fn any(r: &mut Random) -> Stamp {
        let (month, day) = month_day(r);
        let ms = match r.below(4) {
            0 => 0,
            1 => r.pick(&[1, 999, DAY_MS / 2, DAY_MS - 1, DAY_MS - 1000]),
            _ => r.between(0, DAY_MS - 1),
        };
        Stamp { year: year(r), month, day, ms }
    }

    /// Equal, or apart by little or much.
    pub fn near(self, r: &mut Random) -> Stamp {
        let mut s = self;
        match r.weighed(&[3, 10, 15, 15, 15, 15, 27]) {
            0 => {}
            1 => s.ms = (s.ms + r.pick(&[-1000, -1, 1, 999])).rem_euclid(DAY_MS),
            2 => s.day = r.between(1, 31),
            3 => s.month = r.between(1, 12),
            4 => {
                s.month = r.between(1, 12);
                s.day = r.pick(&[1, 28, 29, 30, 31]);
            }
            5 => {
                s.year = (s.year + r.pick(&[-400, -100, -4, -1, 1, 4, 100])).clamp(-4713, 9999);
                s.day = r.pick(&[s.day, 28, 29, 30, 31]);
            }
            _ => s = Stamp::any(r),
        }
        s
    }

    pub fn write(self, r: &mut Random, out: &mut Vec<u8>) {
        write_date(self.year, self.month, self.day, out);
        if self.ms == 0 && r.one_in(2) {
            return;
        }
        let (second, ms) = (self.ms / 1000, self.ms % 1000);
        let (minute, second) = (second / 60, second % 60);
        write!(out, " {:02}:{:02}:{second:02}.{ms:03}", minute / 60, minute % 60).unwrap();
    }
}
