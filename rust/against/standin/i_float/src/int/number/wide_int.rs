use super::uint::UIntNumber;
use std::fmt::Debug;
use std::ops::{Add, Div, Mul, Neg, Shl, Sub};

/// A number that holds products of coordinates. FORCED: name and operators,
/// with the meaning they have on Rust's own numbers; division is reached only
/// for half of a width of 1 or more, where rounding down and towards zero are
/// the same. OWN: `Into` and `From`.
pub trait WideIntNumber:
    Copy
    + Debug
    + Ord
    + From<i64>
    + Into<i64>
    + Add<Output = Self>
    + Sub<Output = Self>
    + Mul<Output = Self>
    + Div<Output = Self>
    + Neg<Output = Self>
    + Shl<u32, Output = Self>
{
    /// FORCED as the type that `unsigned_abs` gives. GUESS without effect:
    /// that it is named here.
    type UInt: UIntNumber;

    /// OWN: 2^30, the value of `UnitIntVector::DENOMINATOR`.
    const UNIT: Self;

    /// FORCED.
    const ZERO: Self;

    /// FORCED.
    const ONE: Self;

    /// FORCED.
    const TWO: Self;

    /// FORCED: the same number.
    fn from_u32(number: u32) -> Self;

    /// FORCED where the number fits, which is everywhere here: a number that
    /// does not fit stops the program.
    fn from_uint(uint: Self::UInt) -> Self;

    /// FORCED where the number is not negative, which is everywhere here: a
    /// square, a radius, or a distance already found to be 0 or more. A
    /// negative number stops the program.
    fn to_uint(self) -> Self::UInt;

    /// FORCED by its name, which is Rust's own.
    fn unsigned_abs(self) -> Self::UInt;

    /// FORCED by its name, which is Rust's own: -1, 0 or 1.
    fn signum(self) -> Self;

    /// UNREACHED.
    fn ilog2(self) -> u32;

    /// UNREACHED.
    fn shr_round(self, bits: u32) -> Self;

    /// UNREACHED.
    fn to_f64(self) -> f64;

    /// UNREACHED.
    fn from_rounded_float(number: f64) -> Self;
}

impl WideIntNumber for i64 {
    type UInt = u64;
    const UNIT: i64 = 1 << 30;
    const ZERO: i64 = 0;
    const ONE: i64 = 1;
    const TWO: i64 = 2;

    fn from_u32(number: u32) -> i64 {
        number.into()
    }

    fn from_uint(uint: u64) -> i64 {
        uint.try_into().expect("a number of 63 bits")
    }

    fn to_uint(self) -> u64 {
        self.try_into().expect("a number that is not negative")
    }

    fn unsigned_abs(self) -> u64 {
        i64::unsigned_abs(self)
    }

    fn signum(self) -> i64 {
        i64::signum(self)
    }

    fn ilog2(self) -> u32 {
        unreachable!("rotation of local points")
    }

    fn shr_round(self, _bits: u32) -> i64 {
        unreachable!("rotation of local points")
    }

    fn to_f64(self) -> f64 {
        unreachable!("float mathematics")
    }

    fn from_rounded_float(_number: f64) -> i64 {
        unreachable!("float mathematics")
    }
}
