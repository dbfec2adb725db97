//! Why a call has no answer.

use crate::raw::Reply;
use std::error::Error;
use std::fmt;

/// Why a call has no answer: the first that holds, in the order below. Nothing was written.
///
/// Shape, Bytes and Setting are tested first, in that order, over all arguments; then Null, Decimal and Early as reading meets them;
/// NoRoom is last.
#[derive(Clone, Copy, Debug, PartialEq, Eq, Hash)]
pub enum Refusal {
    /// 1: SQL's null. The arguments name no moment of the range, or the format has an unknown letter.
    Null,
    /// 2: A time value or modifier has over 255 bytes, a format over 1,024, there are over 16 modifiers, or one holds a zero byte.
    Shape,
    /// 3: A time value, modifier or format holds a byte above 127.
    Bytes,
    /// 4: The clock is above 253402300799999, or the offset outside -86399 to 86399.
    Setting,
    /// 5: A number has over 19 digits (leading zeros don't count, trailing ones do, zero always fits), or its last digit's power of ten is
    /// outside -22 to 22.
    Decimal,
    /// 6: `%J` before Julian day 1,000,000.
    Early,
    /// 7: The answer is longer than the buffer.
    NoRoom {
        /// The answer's length, in bytes.
        needed: usize,
    },
}

impl Refusal {
    /// The refusal's number, 1 to 7, as C callers and the line program see it.
    pub const fn number(self) -> u8 {
        match self {
            Refusal::Null => 1,
            Refusal::Shape => 2,
            Refusal::Bytes => 3,
            Refusal::Setting => 4,
            Refusal::Decimal => 5,
            Refusal::Early => 6,
            Refusal::NoRoom { .. } => 7,
        }
    }

    /// Of a reply that is refused.
    pub(crate) fn of(reply: Reply) -> Refusal {
        match reply.refusal {
            1 => Refusal::Null,
            2 => Refusal::Shape,
            3 => Refusal::Bytes,
            4 => Refusal::Setting,
            5 => Refusal::Decimal,
            6 => Refusal::Early,
            7 => Refusal::NoRoom { needed: reply.length },
            _ => unreachable!("the archive's refusals are 1 to 7"),
        }
    }
}

impl fmt::Display for Refusal {
    fn fmt(&self, f: &mut fmt::Formatter<'_>) -> fmt::Result {
        f.write_str(match self {
            Refusal::Null => "null: no moment of the range, or an unknown letter in the format",
            Refusal::Shape => {
                "shape: a time value or modifier has over 255 bytes, a format over 1,024, \
                 there are over 16 modifiers, or one holds a zero byte"
            }
            Refusal::Bytes => "bytes: a time value, modifier or format holds a byte above 127",
            Refusal::Setting => {
                "setting: clock above 253402300799999, or offset outside -86399 to 86399"
            }
            Refusal::Decimal => {
                "decimal: a number with over 19 digits, or whose last digit's power of ten is outside -22 to 22"
            }
            Refusal::Early => "early: %J before Julian day 1000000",
            Refusal::NoRoom { needed } => {
                return write!(f, "buffer: the answer has {needed} bytes, the buffer fewer")
            }
        })
    }
}

impl Error for Refusal {}
