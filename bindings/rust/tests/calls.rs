//! Each function, each kind of value, each refusal.

use dangsoviey::*;

const SETTING: Setting = Setting { clock_ms: 1_700_000_000_123, offset_s: 3600 };

#[test]
fn every_function() {
    let mut out = [0; 64];
    assert_eq!(date(SETTING, "2023-02-31", NONE, &mut out), Ok("2023-03-03"));
    assert_eq!(date(SETTING, "2024-01-31", &["+1 month", "floor"], &mut out), Ok("2024-02-29"));
    assert_eq!(time(SETTING, "24:00", NONE, &mut out), Ok("24:00:00"));
    assert_eq!(time(SETTING, "00:00:00.0625", &["subsec"], &mut out), Ok("00:00:00.062"));
    assert_eq!(datetime(SETTING, 0, NONE, &mut out), Ok("-4713-11-24 12:00:00"));
    assert_eq!(
        datetime(SETTING, "2024-01-01 00:00:00.999", &["+00:00:01.001"], &mut out),
        Ok("2024-01-01 00:00:02")
    );
    assert_eq!(julianday(SETTING, "2000-01-01 12:00", NONE), Ok(2451545.0));
    assert_eq!(unixepoch(SETTING, "1969-12-31 23:59:59.5", NONE), Ok(Seconds::Integer(-1)));
    assert_eq!(unixepoch(SETTING, "1969-12-31 23:59:59.5", &["subsec"]), Ok(Seconds::Real(-0.5)));
    assert_eq!(strftime(SETTING, "%G %V %U %W", "2021-01-03", NONE, &mut out), Ok("2020 53 01 00"));
    assert_eq!(
        timediff(SETTING, "2023-03-01", "2023-01-31", &mut out),
        Ok("+0000-00-29 00:00:00.000")
    );
    assert_eq!(
        timediff(SETTING, "2023-01-31", "2023-03-01", &mut out),
        Ok("-0000-01-01 00:00:00.000")
    );
}

#[test]
fn milliseconds_and_stamps() {
    assert_eq!(milliseconds(SETTING, "now", NONE), Ok(1_700_000_000_123));
    assert_eq!(milliseconds(SETTING, "1969-12-31 23:59:59.999", NONE), Ok(-1));
    assert_eq!(milliseconds(SETTING, "2024-01-31", &["+1 month", "floor"]), Ok(1_709_164_800_000));
    assert_eq!(milliseconds(SETTING, "now", &["+1 day\0"]), Err(Refusal::Shape));
    assert_eq!(milliseconds(SETTING, "25:00", NONE), Err(Refusal::Null));
    assert_eq!(stamp_string(0).unwrap(), "1970-01-01 00:00:00.000");
    assert_eq!(stamp_string(-1).unwrap(), "1969-12-31 23:59:59.999");
    assert_eq!(stamp_string(-210866760000000).unwrap(), "-4713-11-24 12:00:00.000");
    assert_eq!(stamp_string(253402300799999).unwrap(), "9999-12-31 23:59:59.999");
    for ms in [i64::MIN, -210866760000001, 253402300800000, i64::MAX] {
        assert_eq!(stamp_string(ms), Err(Refusal::Null));
    }
    for ms in (-210866760000000..253402300799999).step_by(99_999_999_977) {
        assert_eq!(milliseconds(SETTING, &stamp_string(ms).unwrap(), NONE), Ok(ms));
    }
}

#[test]
fn every_value() {
    let mut out = [0; 32];
    let mut of = |value, modifiers: &[&str]| {
        datetime(SETTING, value, modifiers, &mut out).map(str::to_owned)
    };
    assert_eq!(of(Value::Absent, &[]).unwrap(), "2023-11-14 22:13:20");
    assert_eq!(of(Value::Absent, &["localtime", "+1 day"]).unwrap(), "2023-11-15 23:13:20");
    assert_eq!(of(Value::Null, &[]), Err(Refusal::Null));
    assert_eq!(of(Value::Text(b"now"), &["subsec"]).unwrap(), "2023-11-14 22:13:20.123");
    assert_eq!(of(1_700_000_000.into(), &["unixepoch"]).unwrap(), "2023-11-14 22:13:20");
    assert_eq!(of((-1i64).into(), &["unixepoch"]).unwrap(), "1969-12-31 23:59:59");
    assert_eq!(of(2451544.5.into(), &[]).unwrap(), "2000-01-01 00:00:00");
    assert_eq!(of(f64::NAN.into(), &["unixepoch"]), Err(Refusal::Null));
    assert_eq!(of(f64::INFINITY.into(), &["auto"]), Err(Refusal::Null));
    assert_eq!(of((&b"2000-01-01"[..]).into(), &[]).unwrap(), "2000-01-01 00:00:00");
    assert_eq!(of((&String::from("12:00")).into(), &[]).unwrap(), "2000-01-01 12:00:00");
    assert_eq!(timediff_string(SETTING, Value::Absent, "now"), Err(Refusal::Null));
    assert_eq!(timediff_string(SETTING, 2451545, 2451544.5).unwrap(), "+0000-00-00 12:00:00.000");
}

#[test]
fn every_refusal() {
    let date_of = |value: &str, modifiers: &[&str]| date_string(SETTING, value, modifiers);
    assert_eq!(date_of("9999-12-31 24:00", &[]), Err(Refusal::Null));
    assert_eq!(date_of("now", &[""]), Err(Refusal::Null));
    assert_eq!(date_of(&"0".repeat(256), &[]), Err(Refusal::Shape));
    assert_eq!(date_of("now", &["+1 day"; 16]).unwrap(), "2023-11-30");
    assert_eq!(date_of("now", &["+1 day"; 17]), Err(Refusal::Shape));
    assert_eq!(date_of("now", &["+1 day"; 1000]), Err(Refusal::Shape));
    assert_eq!(date_of("2024-01-01é", &[]), Err(Refusal::Bytes));
    assert_eq!(date_of("now", &["é"]), Err(Refusal::Bytes));
    assert_eq!(date_of("now", &["1e99 days"]), Err(Refusal::Decimal));
    assert_eq!(strftime_string(SETTING, "%J", 0, NONE), Err(Refusal::Early));
    assert_eq!(strftime_string(SETTING, "%q", 0, NONE), Err(Refusal::Null));
    assert_eq!(strftime_string(SETTING, " ".repeat(1025), 0, NONE), Err(Refusal::Shape));
    assert_eq!(strftime_string(SETTING, b"\xff", 0, NONE), Err(Refusal::Bytes));
    for (clock_ms, offset_s, good) in [
        (253402300799999, 86399, true),
        (0, -86399, true),
        (253402300800000, 0, false),
        (u64::MAX, 0, false),
        (0, 86400, false),
        (0, i64::MIN, false),
    ] {
        let setting = Setting { clock_ms, offset_s };
        let answer = unixepoch(setting, "now", NONE);
        let expected = if good {
            Ok(Seconds::Integer((clock_ms / 1000) as i64))
        } else {
            Err(Refusal::Setting)
        };
        assert_eq!(answer, expected);
    }
    let mut out = [7; 9];
    let no_room = Refusal::NoRoom { needed: 10 };
    assert_eq!(date(SETTING, "now", NONE, &mut out), Err(no_room));
    assert_eq!(out, [7; 9]);
    let refusals = [
        Refusal::Null,
        Refusal::Shape,
        Refusal::Bytes,
        Refusal::Setting,
        Refusal::Decimal,
        Refusal::Early,
        no_room,
    ];
    for (number, refusal) in (1..).zip(refusals) {
        assert_eq!(refusal.number(), number);
        let error: Box<dyn std::error::Error> = refusal.into();
        assert!(error.to_string().contains(": "), "{error}");
    }
}

/// A zero byte inside a modifier would make it two.
#[test]
fn no_zero_byte_in_a_modifier() {
    for modifier in ["+1 day\0+1 day", "\0", "+1 day\0"] {
        assert_eq!(date_string(SETTING, "now", &[modifier]), Err(Refusal::Shape));
        let mut many = vec!["+1 day"; 15];
        many.push(modifier);
        assert_eq!(unixepoch(SETTING, "now", &many), Err(Refusal::Shape));
        assert_eq!(strftime_string(SETTING, "%d", "now", &many), Err(Refusal::Shape));
        many[0] = "+000000000000000000000000000000000000000000000000000000000000000000001 day";
        assert_eq!(julianday(SETTING, "now", &many), Err(Refusal::Shape));
    }
}

/// Modifiers of every length up to the limit, and all of them together.
#[test]
fn long_modifiers() {
    for length in 6..=256 {
        let modifier = format!("+{:0>width$} day", 1, width = length - 5);
        assert_eq!(modifier.len(), length);
        for count in [1, 2, 15, 16, 17] {
            let answer = date_string(SETTING, "2024-01-01", &vec![&modifier; count]);
            let expected = match length <= 255 && count <= 16 {
                true => Ok(format!("2024-01-{:02}", 1 + count)),
                false => Err(Refusal::Shape),
            };
            assert_eq!(answer, expected, "{length} bytes, {count} times");
        }
    }
}

#[test]
fn modifiers_of_any_kind_of_bytes() {
    let texts: Vec<String> = vec!["+1 day".into(), "+1 month".into()];
    let bytes: [&[u8]; 2] = [b"+1 day", b"+1 month"];
    let expected = Ok("2024-02-02".into());
    assert_eq!(date_string(SETTING, "2024-01-01", &texts), expected);
    assert_eq!(date_string(SETTING, "2024-01-01", &bytes), expected);
    assert_eq!(date_string(SETTING, "2024-01-01", &[b"\xff"]), Err(Refusal::Bytes));
}

#[test]
fn strings_of_any_length() {
    for count in [0, 1, 7, 8, 9, 100, 512] {
        let expected = "2024".repeat(count);
        assert_eq!(strftime_string(SETTING, "%Y".repeat(count), "2024-01-01", NONE), Ok(expected));
    }
    assert_eq!(date_string(SETTING, "2024-01-01", NONE).unwrap(), "2024-01-01");
    assert_eq!(time_string(SETTING, "10:11", NONE).unwrap(), "10:11:00");
    assert_eq!(datetime_string(SETTING, "10:11", NONE).unwrap(), "2000-01-01 10:11:00");
    assert_eq!(
        timediff_string(SETTING, "9999-12-31", "-4713-12-01").unwrap(),
        "+14712-00-30 00:00:00.000"
    );
}

#[test]
fn from_many_threads() {
    std::thread::scope(|scope| {
        for thread in 0..4i64 {
            scope.spawn(move || {
                for day in 0..1000 {
                    let number = 2440587.5 + (thread * 1000 + day) as f64;
                    let expected = Seconds::Integer((thread * 1000 + day) * 86400);
                    assert_eq!(unixepoch(SETTING, number, NONE), Ok(expected));
                }
            });
        }
    });
}
