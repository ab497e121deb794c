use std::error::Error;
use std::fmt::{self, Display, Formatter};

/// Why a float of the oldest chunks is not taken, with that float: the first
/// of these that applies, in this order.
#[derive(Clone, Copy, Debug, PartialEq)]
pub enum Untaken {
    /// 1: it is not a number.
    NotANumber(f32),
    /// 2: it is infinite.
    Infinite(f32),
    /// 3: it has a fraction.
    Fraction(f32),
    /// 4: it is too large in size: above 268,435,456 for a coordinate, above
    /// 536,870,912 for a width.
    TooLarge(f32),
    /// 5: it is a negative width.
    NegativeWidth(f32),
    /// 6: it is an odd width.
    OddWidth(f32),
}

impl Display for Untaken {
    fn fmt(&self, formatter: &mut Formatter) -> fmt::Result {
        let (value, reason) = match *self {
            Untaken::NotANumber(value) => (value, "is not a number"),
            Untaken::Infinite(value) => (value, "is infinite"),
            Untaken::Fraction(value) => (value, "has a fraction"),
            Untaken::TooLarge(value) => (value, "is too large in size"),
            Untaken::NegativeWidth(value) => (value, "is a negative width"),
            Untaken::OddWidth(value) => (value, "is an odd width"),
        };
        // the longer float is the same number, and is told with more digits:
        // 268435488.0, not 268435500.0
        write!(formatter, "{:?} {reason}", f64::from(value))
    }
}

impl Error for Untaken {}
