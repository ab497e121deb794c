use super::product_uint::UIntProduct;
use crate::guess::{root, Root};
use std::fmt::Debug;
use std::ops::{AddAssign, Mul, Shl, Sub};

/// A number that holds squared lengths. FORCED: name and operators, with the
/// meaning they have on Rust's own numbers.
pub trait UIntNumber:
    Copy + Debug + Ord + Sub<Output = Self> + Mul<Output = Self> + AddAssign + Shl<u32, Output = Self>
{
    /// FORCED: holds any product of two of these numbers.
    type Product: UIntProduct<Self>;

    /// FORCED.
    const ONE: Self;

    /// FORCED by its name, which is Rust's own.
    fn leading_zeros(self) -> u32;

    /// GUESS: the root rounded down, as Rust's own function of this name
    /// gives it. `covers_circle` rounds it up afterwards, and would do so as
    /// well from the nearest whole number; the radius of a circle inside a
    /// Major arc would show the nearest.
    fn isqrt(self) -> Self;

    /// UNREACHED.
    fn to_f64(self) -> f64;
}

impl UIntNumber for u64 {
    type Product = u128;
    const ONE: u64 = 1;

    fn leading_zeros(self) -> u32 {
        u64::leading_zeros(self)
    }

    fn isqrt(self) -> u64 {
        let down = u64::isqrt(self);
        let nearer_up = self - down * down > down;
        match root() {
            Root::Down => down,
            Root::Nearest => down + nearer_up as u64,
        }
    }

    fn to_f64(self) -> f64 {
        unreachable!("float mathematics")
    }
}
