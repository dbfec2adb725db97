//! Some thousand generated lines, answered here and by the Rust that the archive ports (oracle/), where that is there.

use dangsoviey::*;
use std::fs::File;
use std::io::Write;
use std::path::{Path, PathBuf};
use std::process::{Command, Stdio};

/// From this crate's folder.
const ORACLE: &str = "../../oracle";
const LINES: &str = "20000";
/// Each has its own setting.
const SEEDS: [&str; 4] = ["2", "11", "12", "13"];

#[test]
fn same_answers_as_the_rust() {
    let oracle = match oracle() {
        Ok(oracle) => oracle,
        Err(why) => {
            println!("not compared with the Rust: {why}");
            return;
        }
    };
    for seed in SEEDS {
        let lines = output(&oracle, &["generate", LINES, seed], None);
        let file = Path::new(env!("CARGO_TARGET_TMPDIR")).join(format!("lines.{seed}"));
        File::create(&file).unwrap().write_all(&lines).unwrap();
        let theirs = output(&oracle, &["ruled"], Some(&file));

        let mut lines = split(&lines);
        let setting = setting(lines.next().unwrap());
        let mut count = 0;
        let mut theirs = split(&theirs);
        for line in lines {
            let fields: Vec<&[u8]> = line.split(|&b| b == b'\t').collect();
            let theirs = theirs.next().unwrap();
            let Some(ours) = answer(setting, &fields) else {
                continue;
            };
            let theirs = String::from_utf8_lossy(theirs);
            assert_eq!(ours, theirs, "{}", line.escape_ascii());
            count += 1;
        }
        assert_eq!(theirs.next(), None);
        println!("seed {seed}: {count} of {LINES} lines are calls, with the Rust's answers");
    }
}

/// The oracle's program, built if its sources and the Rust's file are there.
fn oracle() -> Result<PathBuf, String> {
    let folder = Path::new(env!("CARGO_MANIFEST_DIR")).join(ORACLE);
    let program = folder.join("target/release/oracle");
    if program.is_file() {
        return Ok(program);
    }
    if !folder.join("Cargo.toml").is_file() {
        return Err(format!("{} is not there", folder.display()));
    }
    let built = Command::new(env!("CARGO"))
        .args(["build", "--quiet", "--release", "--offline", "--target-dir", "target"])
        .current_dir(&folder)
        .output()
        .map_err(|e| e.to_string())?;
    match built.status.success() {
        true => Ok(program),
        false => Err(String::from_utf8_lossy(&built.stderr).trim().to_owned()),
    }
}

fn output(program: &Path, words: &[&str], input: Option<&Path>) -> Vec<u8> {
    let input = input.map_or(Stdio::null(), |file| File::open(file).unwrap().into());
    let output = Command::new(program).args(words).stdin(input).output().unwrap();
    assert!(output.status.success(), "oracle {words:?}");
    output.stdout
}

fn split(lines: &[u8]) -> impl Iterator<Item = &[u8]> {
    lines.strip_suffix(b"\n").unwrap_or(lines).split(|&b| b == b'\n')
}

fn setting(line: &[u8]) -> Setting {
    let line = std::str::from_utf8(line).unwrap();
    let (clock, offset) = line.split_once('\t').unwrap();
    Setting { clock_ms: clock.parse().unwrap(), offset_s: offset.parse().unwrap() }
}

/// The answer as the line program writes it; none for a line that is no call: another function, too many or too few fields, a zero byte.
fn answer(setting: Setting, fields: &[&[u8]]) -> Option<String> {
    if fields.iter().any(|field| field.contains(&0)) {
        return None;
    }
    let text = |answer: Result<String, Refusal>| answer.unwrap_or_else(refused);
    Some(match *fields {
        [b"strftime", format, value, ref modifiers @ ..] => {
            text(strftime_string(setting, format, value, modifiers))
        }
        [b"timediff", first, second] => text(timediff_string(setting, first, second)),
        [b"timediff", ..] => return None,
        [b"date", value, ref modifiers @ ..] => text(date_string(setting, value, modifiers)),
        [b"time", value, ref modifiers @ ..] => text(time_string(setting, value, modifiers)),
        [b"datetime", value, ref modifiers @ ..] => {
            text(datetime_string(setting, value, modifiers))
        }
        [b"julianday", value, ref modifiers @ ..] => {
            julianday(setting, value, modifiers).map_or_else(refused, bits)
        }
        [b"unixepoch", value, ref modifiers @ ..] => match unixepoch(setting, value, modifiers) {
            Ok(Seconds::Integer(seconds)) => seconds.to_string(),
            Ok(Seconds::Real(seconds)) => bits(seconds),
            Err(refusal) => refused(refusal),
        },
        _ => return None,
    })
}

fn refused(refusal: Refusal) -> String {
    match refusal {
        Refusal::Null => "null".into(),
        other => format!("refused {}", other.number()),
    }
}

fn bits(number: f64) -> String {
    format!("{:016x}", number.to_bits())
}
