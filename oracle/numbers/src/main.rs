//! The rows that the program `test_numbers` is run on, and the answers that must come out.
//!
//! `numbers stdin` prints the rows, `numbers stdout` the answers, a line each. The answers come from Rust's own `parse` and `format!`, and from
//! document 01's limits applied here to the written digits as whole numbers. The seed is fixed: two runs print the same.
//!
//! A row is a kind, a tab and a value:
//!   decimal  a text                 its f64 as 16 hex digits; `nan`; `over` past the limits; `not` for no decimal
//!   three    an f64, 16 hex digits  the number with three decimals
//!   nine     an f64, 16 hex digits  the number with nine decimals
use std::cell::Cell;
use std::collections::BTreeSet;
use std::fmt::Write;

fn main() {
    let rows = rows();
    let mut text = String::new();
    match std::env::args().nth(1).as_deref() {
        Some("stdin") => rows.iter().for_each(|row| writeln!(text, "{row}").unwrap()),
        Some("stdout") => rows.iter().for_each(|row| writeln!(text, "{}", answer(row)).unwrap()),
        _ => panic!("numbers stdin | stdout"),
    }
    print!("{text}");
}

fn rows() -> Vec<String> {
    let mut rows =
        Rows { seen: BTreeSet::new(), list: Vec::new(), random: Random(Cell::new(20_240_229)) };
    shapes(&mut rows);
    near_misses(&mut rows);
    names(&mut rows);
    limits(&mut rows);
    extremes(&mut rows);
    ties_of_whole_numbers(&mut rows);
    ties_of_quotients(&mut rows);
    ties_of_products(&mut rows);
    random_decimals(&mut rows);
    day_numbers(&mut rows);
    three_decimals(&mut rows);
    nine_decimals(&mut rows);
    rows.list
}

// ---- the answers

fn answer(row: &str) -> String {
    let (kind, value) = row.split_once('\t').unwrap();
    match kind {
        "decimal" => decimal(value),
        "three" => format!("{:.3}", f64::from_bits(u64::from_str_radix(value, 16).unwrap())),
        "nine" => format!("{:.9}", f64::from_bits(u64::from_str_radix(value, 16).unwrap())),
        _ => panic!("{row}"),
    }
}

fn decimal(text: &str) -> String {
    match text.parse::<f64>() {
        Err(_) => "not".into(),
        Ok(x) if x.is_nan() => "nan".into(),
        Ok(_) if over(text) => "over".into(),
        Ok(x) => format!("{:016x}", x.to_bits()),
    }
}

/// "Limits: D, the digits written without leading zeros, has at most 19; the last digit's power of ten is -22 to 22. D = 0 always fits."
/// Of a text that Rust reads.
fn over(text: &str) -> bool {
    let text = text.to_ascii_lowercase();
    let body = text.trim_start_matches(['+', '-']);
    if body.starts_with('i') {
        return false;
    }
    let (digits, exponent) = body.split_once('e').unwrap_or((body, "0"));
    let (ones, tenths) = digits.split_once('.').unwrap_or((digits, ""));
    let d = format!("{ones}{tenths}");
    let d = d.trim_start_matches('0');
    if d.is_empty() {
        return false;
    }
    let minus = exponent.starts_with('-');
    let size = exponent.trim_start_matches(['+', '-']).trim_start_matches('0');
    // no text here has 10^6 digits after its point, so that a longer exponent is past the limit
    if d.len() > 19 || size.len() > 6 {
        return true;
    }
    let size: i64 = if size.is_empty() { 0 } else { size.parse().unwrap() };
    let power = if minus { -size } else { size } - tenths.len() as i64;
    !(-22..=22).contains(&power)
}

// ---- collecting rows

struct Rows {
    seen: BTreeSet<String>,
    list: Vec<String>,
    random: Random,
}

impl Rows {
    fn add(&mut self, kind: &str, value: String) {
        let row = format!("{kind}\t{value}");
        assert!(!row.contains('\n'));
        if self.seen.insert(row.clone()) {
            self.list.push(row);
        }
    }

    fn decimal(&mut self, text: impl Into<String>) {
        self.add("decimal", text.into());
    }

    /// D times a power of ten, in one of the ways to write it.
    fn written(&mut self, d: u128, power: i32) {
        let sign = ["", "", "", "-", "+"][self.random.below(5) as usize];
        let digits = d.to_string();
        let way = self.random.below(4);
        let text = if way == 0 && power == 0 {
            digits
        } else if way <= 1 && power < 0 {
            pointed(&digits, (-power) as usize)
        } else if way == 2 && digits.len() > 1 {
            let cut = 1 + self.random.below(digits.len() as u64 - 1) as usize;
            let e = power + (digits.len() - cut) as i32;
            format!("{}.{}e{e}", &digits[..cut], &digits[cut..])
        } else {
            let e = ["e", "E"][self.random.below(2) as usize];
            let plus = if power >= 0 { ["", "+", "0"][self.random.below(3) as usize] } else { "" };
            format!("{digits}{e}{plus}{power}")
        };
        self.decimal(format!("{sign}{text}"));
    }

    fn float(&mut self, kind: &str, x: f64) {
        self.add(kind, format!("{:016x}", x.to_bits()));
    }

    /// A value and its two neighbours.
    fn around(&mut self, kind: &str, x: f64) {
        let bits = x.to_bits();
        for b in [bits - 1, bits, bits + 1] {
            self.add(kind, format!("{b:016x}"));
        }
    }
}

/// The digits with a point before the last `count` of them.
fn pointed(digits: &str, count: usize) -> String {
    if count < digits.len() {
        let cut = digits.len() - count;
        format!("{}.{}", &digits[..cut], &digits[cut..])
    } else {
        format!("0.{}{digits}", "0".repeat(count - digits.len()))
    }
}

/// splitmix64
struct Random(Cell<u64>);

impl Random {
    fn next(&self) -> u64 {
        let z = self.0.get().wrapping_add(0x9e37_79b9_7f4a_7c15);
        self.0.set(z);
        let z = (z ^ (z >> 30)).wrapping_mul(0xbf58_476d_1ce4_e5b9);
        let z = (z ^ (z >> 27)).wrapping_mul(0x94d0_49bb_1331_11eb);
        z ^ (z >> 31)
    }

    fn below(&self, n: u64) -> u64 {
        self.next() % n
    }
}

// ---- the grammar

/// Every mix of the parts of a number, the wrong parts too.
fn shapes(rows: &mut Rows) {
    for sign in ["", "+", "-", "+-"] {
        for ones in ["", "0", "7", "007", "120"] {
            for tenths in ["", ".", ".0", ".50", ".025", ".."] {
                for exponent in
                    ["", "e", "e0", "e2", "E+3", "e-2", "e+", "E-", "e--1", "e1.", "e 1", "e007"]
                {
                    rows.decimal(format!("{sign}{ones}{tenths}{exponent}"));
                }
            }
        }
    }
}

/// One byte too many, too few, or another, in numbers that read.
fn near_misses(rows: &mut Rows) {
    for text in ["1", "-12.5", "0.01e3", "+6E-2", "inf", "-Infinity", "nan"] {
        for at in 0..=text.len() {
            for byte in " \r/09:.-+eEx_n\u{b}\u{1}".chars() {
                rows.decimal(format!("{}{byte}{}", &text[..at], &text[at..]));
                if at < text.len() {
                    rows.decimal(format!("{}{byte}{}", &text[..at], &text[at + 1..]));
                }
            }
            if at < text.len() {
                rows.decimal(format!("{}{}", &text[..at], &text[at + 1..]));
            }
        }
    }
    for text in [
        "0x10",
        "0b1",
        "1e1e1",
        "1.2.3",
        "1,5",
        "1'000",
        "1_0",
        "½",
        "１",
        "−1",
        "1e−1",
        "é",
        "now",
        "5 days",
        "2024-01-01",
        "12:00",
    ] {
        rows.decimal(text);
    }
}

/// inf, infinity, nan with signs and in cases; and what is nearly one of them.
fn names(rows: &mut Rows) {
    for name in ["inf", "infinity", "nan"] {
        for sign in ["", "+", "-"] {
            for case in 0..1u32 << name.len() {
                let text: String = name
                    .chars()
                    .enumerate()
                    .map(|(i, c)| if case >> i & 1 == 1 { c.to_ascii_uppercase() } else { c })
                    .collect();
                rows.decimal(format!("{sign}{text}"));
            }
        }
    }
    for text in [
        "i",
        "in",
        "infi",
        "infinit",
        "infinityy",
        "na",
        "nann",
        "inf0",
        "0inf",
        "inf.",
        "infe1",
        "nan1",
        "+-inf",
        "- nan",
        "ınf",
        "nan()",
        "snan",
        "1.#inf",
    ] {
        rows.decimal(text);
        rows.decimal(format!("-{text}"));
    }
}

// ---- the limits

/// 19 digits and the powers -22 and 22, one less and one past each, with zeros before and after the digits.
fn limits(rows: &mut Rows) {
    let nines = |n: usize| "9".repeat(n);
    let one = |n: usize| format!("1{}", "0".repeat(n - 1));
    for n in [1, 15, 16, 17, 18, 19, 20, 21, 40] {
        for d in [nines(n), one(n)] {
            for zeros in ["", "0", "0000000000000000000000000000000"] {
                for power in [-23, -22, -21, -1, 0, 1, 21, 22, 23] {
                    rows.decimal(format!("{zeros}{d}e{power}"));
                }
                for tenths in [0, 1, n / 2, n, 19, 20, 21, 22, 23, 24] {
                    rows.decimal(format!("{zeros}{}", pointed(&d, tenths)));
                    rows.decimal(format!("-{zeros}{}e1", pointed(&d, tenths)));
                    rows.decimal(format!("{zeros}{}e-1", pointed(&d, tenths)));
                }
            }
        }
    }
    // zeros that count, and exponents that take a long point back
    for n in 0..=26 {
        let zeros = "0".repeat(n);
        for text in [
            format!("1{zeros}"),
            format!("1.{zeros}"),
            format!("1.{zeros}1"),
            format!(".{zeros}1"),
            format!("{zeros}1"),
            format!("0.{zeros}10"),
        ] {
            rows.decimal(text.clone());
            rows.decimal(format!("{text}e{n}"));
            rows.decimal(format!("{text}e-{n}"));
            rows.decimal(format!("{text}e{}", n + 22));
            rows.decimal(format!("{text}e{}", n + 23));
        }
    }
    for n in [100, 230] {
        let zeros = "0".repeat(n);
        for e in [n - 22, n - 21, n, n + 22, n + 23, n + 24] {
            rows.decimal(format!("0.{zeros}1e{e}"));
            rows.decimal(format!("0.{zeros}e{e}"));
        }
    }
    // exponents of any length
    let long = "0".repeat(60);
    for e in [
        "22",
        "23",
        "4294967296",
        "4294967318",
        "9223372036854775807",
        "18446744073709551615",
        "18446744073709551616",
        "18446744073709551638",
        "99999999999999999999999999",
    ] {
        for d in ["1", "0", "0.0", "12.5", "-0"] {
            for sign in ["", "+", "-"] {
                rows.decimal(format!("{d}e{sign}{e}"));
                rows.decimal(format!("{d}e{sign}{long}{e}"));
            }
        }
    }
    // D = 0
    for n in [1, 18, 19, 20, 22, 23, 100] {
        let zeros = "0".repeat(n);
        for text in [
            zeros.clone(),
            format!(".{zeros}"),
            format!("{zeros}."),
            format!("{zeros}.{zeros}"),
            format!("0.{zeros}e-99"),
            format!("{zeros}e99999"),
        ] {
            rows.decimal(text.clone());
            rows.decimal(format!("-{text}"));
            rows.decimal(format!("+{text}1"));
        }
    }
}

/// The largest and the least that fit, with each power.
fn extremes(rows: &mut Rows) {
    for power in -22..=22 {
        for d in [
            1u128,
            2,
            9,
            10_u128.pow(15),
            (1 << 53) - 1,
            1 << 53,
            (1 << 53) + 1,
            (1 << 63) - 1,
            1 << 63,
            (1 << 63) + 1,
            10_u128.pow(19) - 1,
            10_u128.pow(18),
            10_u128.pow(18) - 1,
        ] {
            rows.written(d, power);
        }
    }
}

// ---- exact ties between two f64: odd numbers of 54 bits, times a power of two

/// The tie D times 10^power, one less and one more; and the nearest to it on each side that 19 digits write.
fn tie(rows: &mut Rows, d: u128, power: i32) {
    const LIMIT: u128 = 10_u128.pow(19);
    let (mut d, mut power) = (d, power);
    let mut first = true;
    loop {
        let last = d * 10 >= LIMIT || power == -22;
        if first || last {
            for d in [d - 1, d, d + 1] {
                rows.written(d, power);
            }
        }
        if last {
            return;
        }
        first = false;
        d *= 10;
        power -= 1;
    }
}

fn odd(rows: &mut Rows, least: u128, past: u128) -> u128 {
    least + rows.random.below((past - least) as u64) as u128 | 1
}

fn ties_of_whole_numbers(rows: &mut Rows) {
    for shift in 0..10 {
        for _ in 0..12 {
            let m = odd(rows, 1 << 53, 1 << 54) << shift;
            if m < 10_u128.pow(19) {
                tie(rows, m, 0);
            }
        }
    }
    for m in [(1u128 << 53) + 1, (1 << 53) + 3, (1 << 54) - 1, (1 << 54) - 3] {
        tie(rows, m, 0);
        tie(rows, m << 9, 0);
    }
}

/// m / 2^k is m * 5^k / 10^k.
fn ties_of_quotients(rows: &mut Rows) {
    for k in 1..=4u32 {
        for shift in 0..=k {
            for _ in 0..12 {
                let m = odd(rows, 1 << 53, 1 << 54);
                let d = (m * 5_u128.pow(k)) << shift;
                if d < 10_u128.pow(19) {
                    tie(rows, d, -(k as i32));
                }
            }
        }
    }
}

/// d * 10^p is d * 5^p * 2^p: a tie where d * 5^p is odd and has 54 bits.
fn ties_of_products(rows: &mut Rows) {
    for p in 1..=22 {
        let five = 5_u128.pow(p);
        for _ in 0..8 {
            let d = odd(rows, (1 << 53) / five + 1, (1 << 54) / five);
            if (1 << 53..1 << 54).contains(&(d * five)) {
                tie(rows, d, p as i32);
            }
        }
    }
}

// ---- random

/// D of each length with every power.
fn random_decimals(rows: &mut Rows) {
    for power in -22..=22 {
        for length in 1..=19 {
            let least = 10_u64.pow(length - 1);
            let d = least + rows.random.below(least.saturating_mul(9));
            rows.written(d.min(9_999_999_999_999_999_999) as u128, power);
        }
    }
}

/// Julian day numbers and seconds as people write them.
fn day_numbers(rows: &mut Rows) {
    for _ in 0..300 {
        let day = rows.random.below(5_373_485);
        let places = 1 + rows.random.below(12) as u32;
        let rest = rows.random.below(10_u64.pow(places));
        rows.decimal(format!("{day}.{rest:0width$}", width = places as usize));
        let x = day as f64 + rows.random.below(86_400_000) as f64 / 86_400_000.0;
        rows.decimal(format!("{x}"));
        let seconds = rows.random.below(464_269_060_800) as i64 - 210_866_760_000;
        rows.decimal(format!("{seconds}"));
        rows.decimal(format!("{seconds}.{:03}", rows.random.below(1000)));
    }
}

// ---- fixed point

/// j / 16 with j odd is a tie at three decimals.
fn three_decimals(rows: &mut Rows) {
    for whole in (0..60u64).chain([99, 1000, 65_535, 1_000_000, 253_402_300_799, 299_999_999_999]) {
        for j in (1..16).step_by(2) {
            let x = whole as f64 + j as f64 / 16.0;
            rows.around("three", x);
        }
        rows.float("three", whole as f64);
    }
    for _ in 0..150 {
        let whole = rows.random.below(300_000_000_000) >> rows.random.below(38);
        let x = whole as f64 + rows.random.below(16) as f64 / 16.0;
        rows.around("three", if x == 0.0 { 0.0625 } else { -x });
        let y = whole as f64 + rows.random.below(1 << 52) as f64 / (1u64 << 52) as f64;
        rows.float("three", y);
        rows.float("three", -y);
        rows.float("three", (whole % 60) as f64 + rows.random.below(1000) as f64 / 1000.0);
        rows.float("three", -(whole as f64 + rows.random.below(1000) as f64 / 1000.0));
    }
    for x in [
        0.0,
        -0.0,
        0.0005,
        -0.0005,
        0.0004999,
        0.9995,
        0.9994999999,
        59.999,
        59.9995,
        -0.937,
        -0.5,
        1e-300,
        -1e-300,
        f64::MIN_POSITIVE,
        9_007_199_254_740_991.0,
        4_503_599_627_370_495.5,
    ] {
        rows.float("three", x);
    }
}

/// j / 1024 with j odd is a tie at nine decimals.
fn nine_decimals(rows: &mut Rows) {
    for whole in [
        1_000_000u64,
        1_048_575,
        1_048_576,
        2_097_151,
        2_097_152,
        2_440_587,
        2_460_000,
        4_194_303,
        4_194_304,
        5_373_484,
        8_388_607,
    ] {
        for j in [1u64, 3, 5, 255, 511, 513, 1021, 1023] {
            rows.around("nine", whole as f64 + j as f64 / 1024.0);
        }
        rows.float("nine", whole as f64);
        rows.float("nine", f64::from_bits((whole as f64).to_bits() + 1));
    }
    for _ in 0..200 {
        let whole = 1_000_000 + rows.random.below((1 << 23) - 1_000_000);
        rows.around("nine", whole as f64 + (rows.random.below(512) * 2 + 1) as f64 / 1024.0);
        rows.float("nine", whole as f64 + rows.random.below(1 << 52) as f64 / (1u64 << 52) as f64);
        rows.float("nine", whole as f64 + rows.random.below(86_400_000) as f64 / 86_400_000.0);
    }
    rows.float("nine", f64::from_bits(8_388_608_f64.to_bits() - 1));
}
