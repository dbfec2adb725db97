//! The list: every limit and one past it, for each function, then calls made
//! of generated lines, with values of every kind and rooms around the answer.

use super::{Answer, Call, Given, TimeValue, BUFFER};
use crate::generator::{self, Random};
use crate::lines::{self, Function};
use std::collections::HashSet;
use std::io::{self, Write};

const FUNCTIONS: [Function; 7] = [
    Function::Date,
    Function::Time,
    Function::Datetime,
    Function::Julianday,
    Function::Unixepoch,
    Function::Strftime,
    Function::Timediff,
];

/// A good value, a good format, good modifiers, and bytes that are refused.
const VALUE: &[u8] = b"2024-02-29 12:34:56.789";
const SECOND: &[u8] = b"2022-12-31 23:59:59.999";
const FORMAT: &[u8] = b"%F %T";
const SUBSEC: &[u8] = b"subsec\0";
const OVER: &[u8] = b"1e99";

const INTEGERS: [i64; 24] = [
    0,
    1,
    -1,
    1721059,
    2460000,
    5373483,
    5373484,
    5373485,
    1700000000,
    -210866760000,
    -210866760001,
    253402300799,
    253402300800,
    (1 << 53) - 1,
    1 << 53,
    (1 << 53) + 1,
    -(1 << 53) - 1,
    9223372036854774784,
    9223372036854775295,
    9223372036854775296,
    i64::MAX,
    i64::MIN,
    i64::MIN + 1,
    464269060799999,
];

/// Each with the f64 before and after it, where it is finite and not 0.
const REALS: [f64; 12] = [
    0.5,
    2460000.5,
    1000000.0,
    5373484.0,
    5373484.5,
    -0.5,
    -210866760000.0,
    253402300799.0,
    253402300800.0,
    9223372036854775808.0,
    1e22,
    f64::MAX,
];

const ODD_REALS: [u64; 13] = [
    0x0000000000000000,
    0x8000000000000000,
    0x0000000000000001, // the least above 0
    0x8000000000000001,
    0x000fffffffffffff, // the greatest that is subnormal
    0x0010000000000000,
    0x7ff0000000000000, // the infinities, and NaNs of both kinds and signs
    0xfff0000000000000,
    0x7ff0000000000001,
    0x7ff7ffffffffffff,
    0x7ff8000000000000,
    0xfff8000000000000,
    0xffffffffffffffff,
];

/// The calls at the limits, then so many generated ones, each once.
pub fn list(count: usize, seed: u64, mut output: impl Write) -> io::Result<()> {
    let mut list = List::default();
    for function in FUNCTIONS {
        list.rooms(function);
        list.kinds(function);
        list.lengths(function);
        list.bytes(function);
        list.settings(function);
        list.orders(function);
    }
    list.early();
    let mut random = Random::new(seed);
    let end = list.lines.len() + count;
    while list.lines.len() < end {
        list.add(generated(&mut random));
    }
    for mut line in list.lines {
        line.push(b'\n');
        output.write_all(&line)?;
    }
    output.flush()
}

#[derive(Default)]
struct List {
    lines: Vec<Vec<u8>>,
    seen: HashSet<Vec<u8>>,
}

impl List {
    fn add(&mut self, call: Call) {
        let line = call.line();
        if self.seen.insert(line.clone()) {
            self.lines.push(line);
        }
    }

    /// With no room, one byte too few, just enough, one too many, and all.
    fn in_rooms(&mut self, call: impl Fn() -> Call) {
        let n = call().length();
        for room in [0, n.saturating_sub(1), n, n + 1, BUFFER] {
            self.add(Call { room, ..call() });
        }
    }

    /// Answers of every length that the function has.
    fn rooms(&mut self, function: Function) {
        let ends: [&[u8]; 3] = [VALUE, b"-4713-11-24 12:00", b"9999-12-31 23:59:59.999"];
        for value in ends {
            for modifiers in [b"", SUBSEC] {
                self.in_rooms(|| call(function, value, modifiers));
            }
        }
        // No answer.
        for value in [b"25:00", OVER] {
            self.in_rooms(|| call(function, value, b""));
        }
        match function {
            Function::Strftime => {
                for format in [&b""[..], b"x", b"%%", b"%d", b"%J", b"%s", b"%Y%q", b"%"] {
                    self.in_rooms(|| Call {
                        format: format.to_vec(),
                        ..call(function, VALUE, SUBSEC)
                    });
                }
                // The longest answers that there are: 512 times 17 bytes.
                self.in_rooms(|| Call {
                    format: b"%s".repeat(512),
                    ..call(function, b"-4713-11-24 12:00", SUBSEC)
                });
                self.in_rooms(|| Call {
                    format: b"%J".repeat(512),
                    ..call(function, b"2460000.123456789", b"")
                });
            }
            Function::Timediff => {
                let first = b"-4713-11-24 12:00";
                let last = b"9999-12-31 23:59:59.999";
                for (a, b) in [(&first[..], &last[..]), (last, first), (VALUE, VALUE)] {
                    self.in_rooms(|| Call { second: text(b), ..call(function, a, b"") });
                }
            }
            _ => {}
        }
    }

    /// Values of every kind, with and without bytes beside them.
    fn kinds(&mut self, function: Function) {
        let mut kinds = vec![Given::Absent, Given::Null];
        kinds.extend(INTEGERS.map(Given::Integer));
        for real in REALS {
            kinds.extend([-1, 0, 1].map(|step| Given::Real((real.to_bits() as i64 + step) as u64)));
        }
        kinds.extend(ODD_REALS.map(Given::Real));
        for given in kinds {
            self.with(function, || value(given, b""), b"");
            match function {
                Function::Datetime => {
                    self.with(function, || value(given, b""), b"unixepoch\0");
                    self.with(function, || value(given, b""), b"auto\0");
                }
                Function::Strftime => self.with(function, || value(given, b""), b"julianday\0"),
                _ => {}
            }
        }
        // What stands beside a value that is no bytes is not looked at.
        let kinds = [Given::Absent, Given::Null, Given::Integer(2460000), Given::Real(1 << 62)];
        for given in kinds {
            for beside in [&b"2000-01-01"[..], b";\0\\\x80", &[b'x'; 256]] {
                self.with(function, || value(given, beside), b"");
            }
        }
        let words = [
            "+1 day",
            "start of month",
            "weekday 0",
            "utc",
            "localtime",
            "subsec",
            "floor",
            "auto",
            "julianday",
            "unixepoch",
            "+0001-02-03 04:05:06.789",
            "-10:30",
            "now",
            "1e99 days",
        ];
        for word in words {
            self.with(function, TimeValue::none, &ended(&[word.as_bytes()]));
        }
        if function == Function::Timediff {
            // Which of the two is read first.
            let kinds = [
                || value(Given::Absent, b""),
                || value(Given::Null, b""),
                || text(OVER),
                || text(b"bad"),
                || value(Given::Real(f64::NAN.to_bits()), b""),
                || value(Given::Integer(-1), b""),
            ];
            for a in kinds {
                for b in kinds {
                    self.add(Call { value: a(), second: b(), ..call(function, VALUE, b"") });
                }
            }
        }
    }

    /// A call with this value; timediff's second is tried too.
    fn with(&mut self, function: Function, value: impl Fn() -> TimeValue, modifiers: &[u8]) {
        self.add(Call { value: value(), ..call(function, VALUE, modifiers) });
        if function == Function::Timediff {
            self.add(Call { second: value(), ..call(function, VALUE, modifiers) });
        }
    }

    /// Refusal 2 and what is just let through.
    fn lengths(&mut self, function: Function) {
        for size in [0, 254, 255, 256] {
            let mut value = b"2024-01-31".to_vec();
            value.resize(size, b' ');
            self.with(function, || text(&value), b"");
        }
        if function == Function::Timediff {
            return;
        }
        let padded = |size: usize| {
            let mut modifier = b"+1 day".to_vec();
            modifier.resize(size, b' ');
            modifier
        };
        let day = padded(6);
        let mut buffers = vec![b"+1 day".to_vec(), b"+1 day\0subsec".to_vec(), vec![b' '; 256]];
        for size in [254, 255, 256] {
            buffers.push(ended(&[&padded(size)]));
            buffers.push(ended(&[&day, &padded(size)]));
            buffers.push(padded(size));
        }
        for count in [1, 2, 15, 16, 17, 18] {
            buffers.push(ended(&vec![&day[..]; count]));
            buffers.push(vec![0; count]);
        }
        buffers.push([ended(&[&day[..]; 15]), day.clone()].concat());
        buffers.push([ended(&[&day[..]; 16]), day.clone()].concat());
        buffers.push(ended(&[&padded(255)[..]; 16]));
        buffers.push(ended(&[&[&padded(255)[..]; 15], &[&padded(256)[..]][..]].concat()));
        for modifiers in buffers {
            self.add(call(function, VALUE, &modifiers));
        }
        if function == Function::Strftime {
            for size in [1023, 1024, 1025] {
                let mut format = b"%d".to_vec();
                format.resize(size, b'.');
                self.in_rooms(|| Call { format: format.clone(), ..call(function, VALUE, b"") });
            }
        }
    }

    /// Refusal 3, and bytes that no line of the program format can hold.
    fn bytes(&mut self, function: Function) {
        for byte in [0, 9, 10, 11, 92, 127, 128, 255] {
            for at in [0, 10, VALUE.len()] {
                let mut value = VALUE.to_vec();
                value.insert(at, byte);
                self.with(function, || text(&value), b"");
            }
            self.with(function, || text(&[byte]), b"");
            if function != Function::Timediff {
                for modifiers in [&[byte, 0][..], &[b"+1", &[byte][..], b"day\0"].concat()] {
                    self.add(call(function, VALUE, modifiers));
                }
                let last = [b"+1 day\0weekday 1", &[byte, 0][..]].concat();
                self.add(call(function, VALUE, &last));
                self.add(call(function, VALUE, &[byte]));
            }
            if function == Function::Strftime {
                for format in [&[byte][..], &[b'%', byte], &[b"%F", &[byte][..], b"%T"].concat()] {
                    let format = format.to_vec();
                    self.add(Call { format, ..call(function, VALUE, b"") });
                }
            }
        }
    }

    /// Refusal 4, whether clock and offset are used or not.
    fn settings(&mut self, function: Function) {
        let limit = lines::CLOCK_LIMIT;
        for clock in [0, 1, limit - 1, limit, limit + 1, 1 << 63, u64::MAX] {
            for value in [b"now", VALUE] {
                self.add(Call { clock, ..call(function, value, b"") });
            }
        }
        let limit = lines::OFFSET_LIMIT as i64;
        let edges = [0, 1, limit, limit + 1, i64::MAX];
        for offset in edges.into_iter().chain(edges.map(|offset| -offset)).chain([i64::MIN]) {
            for modifiers in [&b"localtime\0"[..], b"utc\0", b""] {
                self.add(Call { offset, ..call(function, VALUE, modifiers) });
            }
        }
    }

    /// 2, 3, 4 in that order, whichever argument has the fault, and before all
    /// that reading meets; 7 last.
    fn orders(&mut self, function: Function) {
        for faults in 0..8 {
            for value in [VALUE, b"25:00", OVER] {
                for late in [false, true] {
                    self.add(Call { room: 0, ..faulty(function, value, faults, late) });
                }
            }
        }
    }

    /// Refusal 6: `%J` below Julian day 1,000,000.
    fn early(&mut self) {
        let values = [
            value(Given::Integer(999999), b""),
            value(Given::Integer(1000000), b""),
            value(Given::Real(999999.9999999999f64.to_bits()), b""),
            text(b"999999.99999999"),
            text(b"-1975-11-07 11:59:59.999"),
            text(b"-1975-11-07 12:00"),
            text(b"0"),
        ];
        let calls: [(&[u8], usize); 4] =
            [(b"", BUFFER), (b"", 0), (b"-0.001 seconds\0", BUFFER), (b"+0.001 seconds\0", BUFFER)];
        for v in values {
            for format in [&b"%J"[..], b"%d%J", b"%J%q", b"%q%J", b"%%J"] {
                for (modifiers, room) in calls {
                    let value = value(v.given, &v.bytes);
                    let format = format.to_vec();
                    let call = call(Function::Strftime, VALUE, modifiers);
                    self.add(Call { room, format, value, ..call });
                }
            }
        }
    }
}

impl Call {
    /// Of the answer, were there room.
    fn length(&self) -> usize {
        match self.answer() {
            Answer::Text(text) => text.len(),
            Answer::NoRoom(length) => length,
            _ => 0,
        }
    }
}

/// All room, and everything good that is not said.
fn call(function: Function, value: &[u8], modifiers: &[u8]) -> Call {
    let timediff = function == Function::Timediff;
    let strftime = function == Function::Strftime;
    Call {
        clock: 1700000000123,
        offset: 3600,
        room: BUFFER,
        function,
        format: if strftime { FORMAT.to_vec() } else { Vec::new() },
        value: text(value),
        second: if timediff { text(SECOND) } else { TimeValue::none() },
        modifiers: if timediff { Vec::new() } else { modifiers.to_vec() },
    }
}

fn value(given: Given, bytes: &[u8]) -> TimeValue {
    TimeValue { given, bytes: bytes.to_vec() }
}

fn text(bytes: &[u8]) -> TimeValue {
    value(Given::Bytes, bytes)
}

fn ended(modifiers: &[&[u8]]) -> Vec<u8> {
    modifiers.iter().flat_map(|m| [m, &[0][..]]).flatten().copied().collect()
}

/// A call with the faults 2, 3, 4 whose bits are set, early or late among the
/// arguments.
fn faulty(function: Function, value: &[u8], faults: u8, late: bool) -> Call {
    let mut call = call(function, value, b"");
    let (timediff, strftime) = (function == Function::Timediff, function == Function::Strftime);
    if faults & 1 != 0 {
        match late {
            true if timediff => call.second = text(&[b' '; 256]),
            true => call.modifiers.extend(b"+1 day"),
            false if strftime => call.format = vec![b'.'; 1025],
            false => call.value.bytes.resize(256, b' '),
        }
    }
    if faults & 2 != 0 {
        match late {
            // Before what is not ended, if that is there too.
            true if !timediff => drop(call.modifiers.splice(..0, *b"\x80\0")),
            true => call.second.bytes.push(0x80),
            false if strftime => call.format.push(0x80),
            false => call.value.bytes[0] = 0x80,
        }
    }
    if faults & 4 != 0 {
        if late {
            call.offset = -86400;
        } else {
            call.clock = lines::CLOCK_LIMIT + 1;
        }
    }
    call
}

/// A generated line with its own setting, its values of any kind, some bytes
/// that no line can hold, and a room around the answer's length.
fn generated(r: &mut Random) -> Call {
    let line = generator::call(r);
    let mut fields = line.split(|&b| b == b'\t');
    let function = lines::function(fields.next().unwrap()).unwrap();
    let mut call = call(function, b"", b"");
    call.clock = clock(r);
    call.offset = offset(r);
    if function == Function::Strftime {
        call.format = fields.next().unwrap().to_vec();
    }
    call.value = any_kind(r, fields.next().unwrap());
    if function == Function::Timediff {
        call.second = any_kind(r, fields.next().unwrap());
    } else {
        let number = matches!(call.value.given, Given::Integer(_) | Given::Real(_));
        if number && r.one_in(2) {
            call.modifiers.extend(r.pick(&["unixepoch\0", "auto\0", "subsec\0"]).bytes());
        }
        call.modifiers.extend(ended(&fields.collect::<Vec<_>>()));
    }
    if r.one_in(20) {
        damage(r, &mut call);
    }
    let n = call.length();
    call.room = match r.weighed(&[5, 15, 25, 10, 45]) {
        0 => 0,
        1 => n.saturating_sub(1),
        2 => n,
        3 => n + 1,
        _ => BUFFER,
    };
    call
}

fn clock(r: &mut Random) -> u64 {
    match r.weighed(&[50, 40, 8, 2]) {
        0 => r.next() % 4102444800000,
        1 => r.next() % (lines::CLOCK_LIMIT + 1),
        2 => r.pick(&[0, 1, 951782400000, lines::CLOCK_LIMIT]),
        _ => r.pick(&[lines::CLOCK_LIMIT + 1, u64::MAX]),
    }
}

fn offset(r: &mut Random) -> i64 {
    match r.weighed(&[40, 48, 10, 2]) {
        0 => 900 * r.between(-48, 56),
        1 => r.between(-86399, 86399),
        2 => r.pick(&[-86399, -1, 0, 1, 86399]),
        _ => r.pick(&[-86400, 86400, i64::MIN, i64::MAX]),
    }
}

/// Mostly the bytes; where not, they often stand beside it.
fn any_kind(r: &mut Random, bytes: &[u8]) -> TimeValue {
    let number = generator::number(r);
    let given = match r.weighed(&[70, 5, 2, 9, 14]) {
        0 => Given::Bytes,
        1 => Given::Absent,
        2 => Given::Null,
        3 => Given::Integer(if r.one_in(6) { r.pick(&INTEGERS) } else { number as i64 }),
        _ => Given::Real(match r.below(12) {
            0 => r.pick(&ODD_REALS),
            1 => r.next(),
            _ => number.to_bits(),
        }),
    };
    let beside = matches!(given, Given::Bytes) || r.one_in(3);
    value(given, if beside { bytes } else { b"" })
}

/// One byte of one argument changed, put in or left out.
fn damage(r: &mut Random, call: &mut Call) {
    let arguments =
        [&mut call.value.bytes, &mut call.second.bytes, &mut call.format, &mut call.modifiers];
    let mut arguments: Vec<_> = arguments.into_iter().filter(|a| !a.is_empty()).collect();
    if arguments.is_empty() {
        return;
    }
    let place = r.below(arguments.len());
    let bytes = &mut arguments[place];
    let at = r.below(bytes.len());
    let byte = match r.below(4) {
        0 => r.pick(&[0, 9, 10, 11, 12, 13, 32]),
        1 => r.pick(b"0123456789+-:. TZe%"),
        2 => r.pick(&[126, 127, 128, 255]),
        _ => r.next() as u8,
    };
    match r.below(5) {
        0 => drop(bytes.remove(at)),
        1 => drop(bytes.pop()),
        2 => bytes.insert(at, byte),
        _ => bytes[at] = byte,
    }
}
