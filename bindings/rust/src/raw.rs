//! The functions as the archive has them, for callers that lay out arguments themselves.
//!
//! A slice is a pointer and a length; with length 0 the pointer may be anything. `given` says what the time value is ([`ABSENT`] and the
//! following), modifiers lie one after another in one slice, each ended by a zero byte. Nothing is kept, nothing is allocated, there is no
//! state: every function may be called from any thread.
//!
//! # Safety
//!
//! For each function: every pointer with a length above 0 is valid for reading that many bytes, `out` for writing them, during the call;
//! and no byte of `out` lies in another argument.

/// `given`: no time value, read as `now`.
pub const ABSENT: u32 = 0;
/// `given`: null, as is every number without a name here.
pub const NULL: u32 = 1;
/// `given`: the bytes of `value`.
pub const BYTES: u32 = 2;
/// `given`: the number `integer`.
pub const INTEGER: u32 = 3;
/// `given`: the number `real`.
pub const REAL: u32 = 4;

/// [`Reply::kind`]: refused.
pub const REFUSED: u32 = 0;
/// [`Reply::kind`]: a text, from the first byte of `out` on.
pub const TEXT: u32 = 1;
/// [`Reply::kind`]: an integer.
pub const WHOLE: u32 = 2;
/// [`Reply::kind`]: an f64.
pub const FLOAT: u32 = 3;

/// What comes back.
#[repr(C)]
#[derive(Clone, Copy, Debug, PartialEq)]
pub struct Reply {
    /// [`REFUSED`], [`TEXT`], [`WHOLE`] or [`FLOAT`].
    pub kind: u32,
    /// 0, or the number of the refusal, 1 to 7.
    pub refusal: u32,
    /// The text's length; with refusal 7 the length needed; else 0.
    pub length: usize,
    /// The integer, or 0.
    pub integer: i64,
    /// The f64, or 0.
    pub real: f64,
}

/// The shape of date, time and datetime: clock, offset, given, integer, real, then value, modifiers and `out`, each with its length.
pub type TextFunction = unsafe extern "C" fn(
    u64,
    i64,
    u32,
    i64,
    f64,
    *const u8,
    usize,
    *const u8,
    usize,
    *mut u8,
    usize,
) -> Reply;

/// The shape of julianday, unixepoch and milliseconds: the same without `out`.
pub type NumberFunction =
    unsafe extern "C" fn(u64, i64, u32, i64, f64, *const u8, usize, *const u8, usize) -> Reply;

/// A function of one time value and its modifiers, and what else it takes.
macro_rules! of_one_value {
    ($(#[$words:meta])* $name:ident $(, $more:ident: $type:ty)*) => {
        extern "C" {
            $(#[$words])*
            pub fn $name(
                clock: u64,
                offset: i64,
                given: u32,
                integer: i64,
                real: f64,
                value: *const u8,
                value_length: usize,
                modifiers: *const u8,
                modifiers_length: usize
                $(, $more: $type)*
            ) -> Reply;
        }
    };
}

of_one_value! {
    /// YYYY-MM-DD.
    dangsoviey_date, out: *mut u8, out_length: usize
}
of_one_value! {
    /// HH:MM:SS, and three decimals with `subsec`.
    dangsoviey_time, out: *mut u8, out_length: usize
}
of_one_value! {
    /// The date, a space and the time.
    dangsoviey_datetime, out: *mut u8, out_length: usize
}
of_one_value! {
    /// The Julian day, an f64.
    dangsoviey_julianday
}
of_one_value! {
    /// Seconds since 1970, an integer; with `subsec` an f64.
    dangsoviey_unixepoch
}
of_one_value! {
    /// The moment as whole milliseconds since 1970, an integer.
    dangsoviey_milliseconds
}

extern "C" {
    /// What a format says of the moment.
    pub fn dangsoviey_strftime(
        clock: u64,
        offset: i64,
        format: *const u8,
        format_length: usize,
        given: u32,
        integer: i64,
        real: f64,
        value: *const u8,
        value_length: usize,
        modifiers: *const u8,
        modifiers_length: usize,
        out: *mut u8,
        out_length: usize,
    ) -> Reply;

    /// The shift from the second time value to the first.
    pub fn dangsoviey_timediff(
        clock: u64,
        offset: i64,
        first_given: u32,
        first_integer: i64,
        first_real: f64,
        first: *const u8,
        first_length: usize,
        second_given: u32,
        second_integer: i64,
        second_real: f64,
        second: *const u8,
        second_length: usize,
        out: *mut u8,
        out_length: usize,
    ) -> Reply;

    /// YYYY-MM-DD HH:MM:SS.SSS of milliseconds since 1970.
    pub fn dangsoviey_stamp(ms: i64, out: *mut u8, out_length: usize) -> Reply;
}
