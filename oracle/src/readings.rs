//! `oracle readings`: a list of calls with the answers that the documents give.
//! lists/readings.txt says how such a list is written.

use crate::limits;
use crate::lines::{self, Reading};
use std::fs;

/// Prints every call whose answer is another; false if there is one.
pub fn run(path: &str) -> bool {
    let list = list(path);
    let mut setting = String::new();
    let (mut calls, mut wrong) = (0, 0);
    for (number, entry) in list.lines().enumerate() {
        if entry.is_empty() || entry.starts_with('#') {
            continue;
        }
        if let Some(new) = entry.strip_prefix("setting ") {
            setting = new.trim().to_string();
            continue;
        }
        let Some((how, call, wanted)) = parts(entry) else {
            panic!("{path}, line {}: no entry of the list's form", number + 1);
        };
        let (reading, input) = match how {
            "ruled" => (Reading::Ruled(limits::ALL), format!("{setting}\\n{call}")),
            "raw" => (Reading::Raw, format!("{setting}\\n{call}")),
            "run" => (Reading::Ruled(limits::ALL), call.to_string()),
            _ => panic!("{path}, line {}: no such reading: {how}", number + 1),
        };
        let mut output = Vec::new();
        lines::run(reading, bytes(&input).as_slice(), &mut output).unwrap();
        calls += 1;
        let mut wanted = bytes(wanted);
        wanted.push(b'\n');
        if output != wanted {
            wrong += 1;
            println!("{path}, line {}: {entry}", number + 1);
            let cut = &output[..output.len().min(200)];
            println!("    answered {}", cut.escape_ascii());
        }
    }
    println!("readings: {calls} calls, {wrong} answered otherwise");
    wrong == 0
}

fn list(path: &str) -> String {
    fs::read_to_string(path).unwrap_or_else(|e| panic!("{path} does not read: {e}"))
}

/// The lines of all calls, as they stand there, and those of whole runs after
/// the first.
pub fn lines(path: &str) -> Vec<Vec<u8>> {
    let list = list(path);
    let mut lines = Vec::new();
    for (how, call, _) in list.lines().filter(|l| !l.starts_with('#')).filter_map(parts) {
        let call = bytes(call);
        let first = usize::from(how == "run");
        lines.extend(call.split(|&b| b == b'\n').skip(first).map(<[u8]>::to_vec));
    }
    lines
}

/// The calls of a list that are read by 01.
pub fn ruled(path: &str) -> Vec<Vec<u8>> {
    let list = list(path);
    let calls = list.lines().filter(|l| !l.starts_with('#')).filter_map(parts);
    calls.filter(|&(how, _, _)| how == "ruled").map(|(_, call, _)| bytes(call)).collect()
}

/// `place reading call => answer`: the last three.
fn parts(entry: &str) -> Option<(&str, &str, &str)> {
    let (_place, rest) = entry.split_once(' ')?;
    let (how, rest) = rest.trim_start().split_once(' ')?;
    let (call, answer) = rest.rsplit_once("=>")?;
    let call = call.trim_start();
    Some((how, call.strip_suffix(' ').unwrap_or(call), answer.strip_prefix(' ').unwrap_or(answer)))
}

/// The bytes that a text of a list stands for.
pub fn bytes(text: &str) -> Vec<u8> {
    let mut out = Vec::new();
    let mut rest = text.as_bytes();
    while let [first, tail @ ..] = rest {
        rest = tail;
        match first {
            b'>' => out.push(b'\t'),
            b'\\' => {
                let (byte, used) = match rest[0] {
                    b'n' => (b'\n', 1),
                    b'r' => (b'\r', 1),
                    b'f' => (12, 1),
                    b'v' => (11, 1),
                    b'x' => {
                        let digits = std::str::from_utf8(&rest[1..3]).unwrap();
                        (u8::from_str_radix(digits, 16).unwrap(), 3)
                    }
                    other => panic!("no such escape: \\{}", other as char),
                };
                out.push(byte);
                rest = &rest[used..];
            }
            b'{' => {
                let end = rest.iter().position(|&b| b == b'}').expect("a brace is not closed");
                let (times, repeated) = std::str::from_utf8(&rest[..end])
                    .ok()
                    .and_then(|inside| inside.split_once('*'))
                    .expect("braces hold a number, a star and a text");
                out.extend(bytes(repeated).repeat(times.parse().unwrap()));
                rest = &rest[end + 1..];
            }
            &byte => out.push(byte),
        }
    }
    out
}

#[cfg(test)]
#[test]
fn list_texts() {
    assert_eq!(bytes(r"a>\n\x80{3*x>}b"), b"a\t\n\x80x\tx\tx\tb");
    let entry = "F1  ruled  date>2024-01-01 T  => 2024-01-01";
    assert_eq!(parts(entry), Some(("ruled", "date>2024-01-01 T ", "2024-01-01")));
    assert_eq!(parts("2 run => refused 4"), Some(("run", "", "refused 4")));
    assert_eq!(parts("7 ruled strftime>>now =>"), Some(("ruled", "strftime>>now", "")));
}
