use super::{uint::UIntNumber, wide_int::WideIntNumber};
use std::fmt::Debug;

/// A coordinate. FORCED: name, and the copying, comparing and printing that
/// the text's own structs derive from it. OWN: `Into`.
pub trait IntNumber: Copy + Debug + Ord + Into<i64> {
    /// FORCED: twice the bits, signed. The text says (core/integer.rs) that
    /// two products of N-bit differences are below 2^(2N - 1) and so fit.
    type Wide: WideIntNumber<UInt = Self::WideUInt>;

    /// FORCED: twice the bits, unsigned. `tangent_offsets` shifts by half of
    /// its leading zeros, less one: with more bits, what it shifts would not
    /// fit in `Wide`.
    type WideUInt: UIntNumber;

    /// FORCED: the number of bits. arc/integer.rs takes a branch of its own
    /// for 16, and shifts `Wide` by what it computes from this number.
    const BITS: u32;

    /// FORCED.
    const ZERO: Self;

    /// FORCED.
    const ONE: Self;

    /// FORCED: the same number.
    fn to_wide(self) -> Self::Wide;

    /// FORCED where the number fits, which is everywhere here: a number that
    /// does not fit stops the program.
    fn from_wide(wide: Self::Wide) -> Self;

    /// FORCED where the number fits, which is everywhere here: a number that
    /// does not fit stops the program.
    fn from_uint(uint: Self::WideUInt) -> Self;

    /// UNREACHED.
    fn to_f64(self) -> f64;
}

impl IntNumber for i32 {
    type Wide = i64;
    type WideUInt = u64;
    const BITS: u32 = 32;
    const ZERO: i32 = 0;
    const ONE: i32 = 1;

    fn to_wide(self) -> i64 {
        self.into()
    }

    fn from_wide(wide: i64) -> i32 {
        wide.try_into().expect("a coordinate of 32 bits")
    }

    fn from_uint(uint: u64) -> i32 {
        uint.try_into().expect("a coordinate of 32 bits")
    }

    fn to_f64(self) -> f64 {
        unreachable!("float mathematics")
    }
}
