//! What each lent byte holds after a call: the answer from the first on, all others as before.

use dangsoviey::*;

const SETTING: Setting = Setting { clock_ms: 1_700_000_000_123, offset_s: 0 };
const AROUND: usize = 16;

/// A text function with its arguments in it.
type Call = fn(&mut [u8]) -> Result<&str, Refusal>;

const CALLS: [Call; 11] = [
    |out| date(SETTING, "2024-02-29", NONE, out),
    |out| date(SETTING, "-4713-11-24 12:00", NONE, out),
    |out| time(SETTING, "10:11:12.345", &["subsec"], out),
    |out| datetime(SETTING, "now", &["subsec", "+1 month"], out),
    |out| strftime(SETTING, "", "now", NONE, out),
    |out| strftime(SETTING, "%d e %F %f %H:%M %J %s %%", "now", NONE, out),
    |out| {
        strftime(
            SETTING,
            "%Y-%m-%d %H:%M:%f and much that is copied as it stands",
            "now",
            NONE,
            out,
        )
    },
    |out| timediff(SETTING, "2024-02-29", "1999-12-31 23:59:59.999", out),
    |out| timediff(SETTING, "9999-12-31", "-4713-12-01", out),
    |out| stamp(1_700_000_000_123, out),
    |out| stamp(-210866760000000, out),
];

/// Three patterns, so that no byte is unchanged by chance.
fn patterns() -> [fn(usize) -> u8; 3] {
    [|_| 0, |_| 0xff, |i| (i as u8).wrapping_mul(37) ^ 0x5a]
}

#[test]
fn every_length_of_buffer() {
    for call in CALLS {
        let mut large = [0; 256];
        let answer = call(&mut large).unwrap().to_owned();
        for length in 0..answer.len() + 40 {
            for pattern in patterns() {
                let before: Vec<u8> = (0..AROUND + length + AROUND).map(pattern).collect();
                let mut bytes = before.clone();
                let given = call(&mut bytes[AROUND..AROUND + length]).map(str::to_owned);
                let mut expected = before;
                if length < answer.len() {
                    assert_eq!(given, Err(Refusal::NoRoom { needed: answer.len() }));
                } else {
                    assert_eq!(given.as_ref(), Ok(&answer));
                    expected[AROUND..AROUND + answer.len()].copy_from_slice(answer.as_bytes());
                }
                assert_eq!(bytes, expected, "{answer:?} in {length} bytes");
            }
        }
    }
}

#[test]
fn nothing_written_when_refused() {
    const REFUSED: [Call; 8] = [
        |out| date(SETTING, "no date", NONE, out),
        |out| time(SETTING, "now", &["+1 day", "no modifier"], out),
        |out| datetime(SETTING, "9999-12-31", &["+1 day"], out),
        |out| strftime(SETTING, "%Y-%m-%d %q", "now", NONE, out),
        |out| strftime(SETTING, "%Y %J", 0, NONE, out),
        |out| strftime(SETTING, "%Y %", "now", NONE, out),
        |out| timediff(SETTING, "now", "no date", out),
        |out| stamp(i64::MAX, out),
    ];
    for call in REFUSED {
        for pattern in patterns() {
            for length in [0, 1, 4, 19, 64] {
                let before: Vec<u8> = (0..length).map(pattern).collect();
                let mut bytes = before.clone();
                assert!(matches!(call(&mut bytes), Err(Refusal::Null | Refusal::Early)));
                assert_eq!(bytes, before);
            }
        }
    }
}

#[test]
fn empty_slices() {
    assert_eq!(strftime(SETTING, "", "now", NONE, &mut []), Ok(""));
    assert_eq!(strftime(SETTING, b"", "now", NONE, &mut [1, 2]), Ok(""));
    assert_eq!(date(SETTING, "", NONE, &mut []), Err(Refusal::Null));
    assert_eq!(date(SETTING, "now", NONE, &mut []), Err(Refusal::NoRoom { needed: 10 }));
    assert_eq!(date(SETTING, Value::Absent, NONE, &mut []), Err(Refusal::NoRoom { needed: 10 }));
    assert_eq!(timediff(SETTING, "", "", &mut []), Err(Refusal::Null));
    assert_eq!(timediff(SETTING, "now", "now", &mut []), Err(Refusal::NoRoom { needed: 24 }));
    assert_eq!(unixepoch(SETTING, "", NONE), Err(Refusal::Null));
    assert_eq!(julianday(SETTING, "now", &[""]), Err(Refusal::Null));
}

/// The archive itself: null with length 0, unended modifiers, numbers that name no kind.
#[test]
fn raw_edges() {
    use std::ptr::{null, null_mut};
    let unix = |given, modifiers: &[u8]| {
        // SAFETY: the only pointer with a length is the slice's.
        unsafe {
            raw::dangsoviey_unixepoch(
                1_700_000_000_123,
                0,
                given,
                0,
                0.0,
                null(),
                0,
                modifiers.as_ptr(),
                modifiers.len(),
            )
        }
    };
    let refused = |refusal| raw::Reply { kind: 0, refusal, length: 0, integer: 0, real: 0.0 };
    let whole =
        |integer| raw::Reply { kind: raw::WHOLE, refusal: 0, length: 0, integer, real: 0.0 };
    assert_eq!(unix(raw::ABSENT, b""), whole(1_700_000_000));
    assert_eq!(unix(raw::ABSENT, b"+1 day\0"), whole(1_700_086_400));
    assert_eq!(unix(raw::ABSENT, b"+1 day"), refused(2));
    assert_eq!(unix(raw::ABSENT, b"\0"), refused(1));
    assert_eq!(unix(raw::NULL, b""), refused(1));
    assert_eq!(unix(5, b""), refused(1));
    assert_eq!(unix(u32::MAX, b""), refused(1));
    // SAFETY: no pointer has a length.
    let reply = unsafe {
        raw::dangsoviey_date(0, 0, raw::ABSENT, 0, 0.0, null(), 0, null(), 0, null_mut(), 0)
    };
    assert_eq!(reply, raw::Reply { length: 10, ..refused(7) });
}
