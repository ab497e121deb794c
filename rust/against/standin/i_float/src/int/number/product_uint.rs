use crate::guess::{halves, Halves};

/// A product of two unsigned numbers. FORCED: name. GUESS without effect: that
/// the factors' type is a parameter.
pub trait UIntProduct<U>: Sized {
    /// FORCED: the product, whole.
    fn multiply(a: U, b: U) -> Self;

    /// FORCED: that no sign is seen here, for `mul_div` takes the signs apart
    /// and puts them back. So a rule that looks at the sign, such as halves
    /// always to the right, cannot be. As good as forced by its name: the
    /// nearest whole number.
    ///
    /// GUESS: exact halves go up, and so away from zero once the sign is put
    /// back. They could go down (towards zero), to the even or to the odd
    /// neighbour.
    fn divide_with_rounding(self, divisor: U) -> U;
}

impl UIntProduct<u64> for u128 {
    fn multiply(a: u64, b: u64) -> u128 {
        a as u128 * b as u128
    }

    fn divide_with_rounding(self, divisor: u64) -> u64 {
        let divisor = divisor as u128;
        let (quotient, rest) = (self / divisor, self % divisor);
        let up = match (2 * rest).cmp(&divisor) {
            std::cmp::Ordering::Less => false,
            std::cmp::Ordering::Greater => true,
            std::cmp::Ordering::Equal => match halves() {
                Halves::Up => true,
                Halves::Down => false,
                Halves::ToEven => quotient % 2 == 1,
                Halves::ToOdd => quotient % 2 == 0,
            },
        };
        let rounded = quotient + up as u128;
        rounded.try_into().expect("a quotient of 64 bits")
    }
}
