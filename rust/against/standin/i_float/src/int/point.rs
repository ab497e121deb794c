use super::number::int::IntNumber;
use super::vector::IntVector;
use std::ops::Sub;

/// A point. FORCED: name, fields, `new`, and the difference as a vector.
///
/// GUESS without effect: the order, by x and then by y. It only tells which
/// way round a segment is stored, and the direction is stored with it.
#[derive(Clone, Copy, Debug, PartialEq, Eq, PartialOrd, Ord)]
pub struct IntPoint<I: IntNumber> {
    pub x: I,
    pub y: I,
}

impl<I: IntNumber> IntPoint<I> {
    /// FORCED.
    pub fn new(x: I, y: I) -> Self {
        Self { x, y }
    }
}

impl<I: IntNumber> Sub for IntPoint<I> {
    type Output = IntVector<I>;

    /// FORCED: exact, since the components are wide.
    fn sub(self, other: Self) -> IntVector<I> {
        IntVector::new(
            self.x.to_wide() - other.x.to_wide(),
            self.y.to_wide() - other.y.to_wide(),
        )
    }
}
