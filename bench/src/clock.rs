//! Processor time, which other programs on the machine disturb less than the wall's.

use std::ffi::{c_int, c_long};

#[repr(C)]
struct Time {
    seconds: c_long,
    /// Nanoseconds or microseconds.
    parts: c_long,
}

#[repr(C)]
struct Usage {
    user: Time,
    system: Time,
    others: [c_long; 14],
}

extern "C" {
    fn clock_gettime(clock: c_int, time: *mut Time) -> c_int;
    fn getrusage(who: c_int, usage: *mut Usage) -> c_int;
}

const THREAD: c_int = 3;
const CHILDREN: c_int = -1;

/// Nanoseconds of processor time that this thread has used.
pub fn thread() -> f64 {
    let mut time = Time { seconds: 0, parts: 0 };
    // SAFETY: the place for the answer is ours.
    assert_eq!(unsafe { clock_gettime(THREAD, &mut time) }, 0);
    time.seconds as f64 * 1e9 + time.parts as f64
}

/// Nanoseconds of processor time that all ended children have used.
pub fn children() -> f64 {
    let none = || Time { seconds: 0, parts: 0 };
    let mut usage = Usage { user: none(), system: none(), others: [0; 14] };
    // SAFETY: the place for the answer is ours.
    assert_eq!(unsafe { getrusage(CHILDREN, &mut usage) }, 0);
    let of = |time: &Time| time.seconds as f64 * 1e9 + time.parts as f64 * 1e3;
    of(&usage.user) + of(&usage.system)
}
