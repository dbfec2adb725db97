//! What the Rust's file names and does not define: its value types, and in
//! place of `std`'s clock and of chrono's zone two settings of one call.

use std::cell::Cell;

thread_local! {
    /// Milliseconds from 1970-01-01 UTC.
    static CLOCK: Cell<u64> = const { Cell::new(0) };
    /// Seconds east.
    static OFFSET: Cell<i32> = const { Cell::new(0) };
}

/// Clock (milliseconds) and offset (seconds east) of all calls that follow.
pub fn set(clock: u64, offset: i32) {
    CLOCK.set(clock);
    OFFSET.set(offset);
}

pub type Result<T> = std::result::Result<T, LimboError>;

/// The Rust makes these and only asks whether there is one.
pub enum LimboError {
    InvalidModifier(#[allow(dead_code)] String),
}

pub mod numeric {
    /// The Rust's own type is any f64 but NaN.
    #[derive(Clone, Copy)]
    pub struct NonNan(f64);

    impl NonNan {
        pub fn new(f: f64) -> Option<NonNan> {
            (!f.is_nan()).then_some(NonNan(f))
        }
    }

    impl From<NonNan> for f64 {
        fn from(f: NonNan) -> f64 {
            f.0
        }
    }

    #[derive(Clone, Copy)]
    pub enum Numeric {
        Integer(i64),
        Float(NonNan),
    }
}

pub mod types {
    use super::numeric::{NonNan, Numeric};
    use std::fmt;

    /// What a function gives back.
    pub enum Value {
        Null,
        Numeric(Numeric),
        Text(String),
    }

    impl Value {
        pub fn from_text(text: String) -> Value {
            Value::Text(text)
        }

        pub fn from_i64(i: i64) -> Value {
            Value::Numeric(Numeric::Integer(i))
        }

        pub fn from_f64(f: f64) -> Value {
            NonNan::new(f).map_or(Value::Null, |f| Value::Numeric(Numeric::Float(f)))
        }
    }

    /// What a function is given.
    #[derive(Clone, Copy)]
    pub enum ValueRef<'a> {
        Null,
        Numeric(Numeric),
        Text(TextRef<'a>),
        Blob(&'a [u8]),
    }

    /// Only a format that is no text is written so.
    impl fmt::Display for ValueRef<'_> {
        fn fmt(&self, f: &mut fmt::Formatter) -> fmt::Result {
            match *self {
                ValueRef::Null => Ok(()),
                ValueRef::Numeric(Numeric::Integer(i)) => write!(f, "{i}"),
                ValueRef::Numeric(Numeric::Float(x)) => write!(f, "{}", f64::from(x)),
                ValueRef::Text(t) => f.write_str(t.as_str()),
                ValueRef::Blob(b) => f.write_str(&String::from_utf8_lossy(b)),
            }
        }
    }

    #[derive(Clone, Copy)]
    pub enum TextSubtype {
        Text,
    }

    #[derive(Clone, Copy)]
    pub struct TextRef<'a>(&'a str);

    impl<'a> TextRef<'a> {
        pub fn new(text: &'a str, _: TextSubtype) -> TextRef<'a> {
            TextRef(text)
        }

        pub fn as_str(&self) -> &'a str {
            self.0
        }
    }

    pub trait AsValueRef {
        fn as_value_ref(&self) -> ValueRef<'_>;
    }

    impl AsValueRef for ValueRef<'_> {
        fn as_value_ref(&self) -> ValueRef<'_> {
            *self
        }
    }
}

/// Stands where the Rust's file says `std`: the same, but for the clock.
pub mod std_with_clock {
    pub use ::std::{borrow, fmt, str};

    pub mod time {
        pub use ::std::time::UNIX_EPOCH;

        pub struct SystemTime;

        impl SystemTime {
            pub fn now() -> ::std::time::SystemTime {
                UNIX_EPOCH + ::std::time::Duration::from_millis(super::super::CLOCK.get())
            }
        }
    }
}

/// Stands where the Rust's file says `chrono`: one offset at any second.
pub mod chrono {
    pub struct Local;
    pub struct DateTime(FixedOffset);
    #[derive(Clone, Copy)]
    pub struct FixedOffset(i32);

    #[allow(dead_code)] // The Rust has an arm for all but Single.
    pub enum LocalResult<T> {
        None,
        Single(T),
        Ambiguous(T, T),
    }

    pub trait TimeZone {
        fn timestamp_opt(&self, seconds: i64, nanoseconds: u32) -> LocalResult<DateTime>;
    }

    impl TimeZone for Local {
        fn timestamp_opt(&self, _: i64, _: u32) -> LocalResult<DateTime> {
            LocalResult::Single(DateTime(FixedOffset(super::OFFSET.get())))
        }
    }

    impl DateTime {
        pub fn offset(&self) -> FixedOffset {
            self.0
        }
    }

    pub trait Offset {
        fn fix(&self) -> FixedOffset;
    }

    impl Offset for FixedOffset {
        fn fix(&self) -> FixedOffset {
            *self
        }
    }

    impl FixedOffset {
        pub fn local_minus_utc(&self) -> i32 {
            self.0
        }
    }
}
