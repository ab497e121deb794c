use super::number::{int::IntNumber, wide_int::WideIntNumber};
use super::vector::IntVector;
use crate::guess::{inside, Inside};

/// A direction. FORCED: name; components of a coordinate's type, behind `x()`
/// and `y()`.
#[derive(Clone, Copy, Debug, PartialEq, Eq)]
pub struct UnitIntVector<I: IntNumber> {
    x: I,
    y: I,
}

impl<I: IntNumber> UnitIntVector<I> {
    /// FORCED: 2^(bits - 2), here 2^30. arc/integer.rs takes 2·(bits - 2) for
    /// the bits of a dot product of two directions.
    pub const DENOMINATOR: I::Wide = I::Wide::UNIT;

    /// OWN: the direction of these components.
    pub(crate) fn of(x: i64, y: i64) -> Self {
        let narrow = |c: i64| I::from_wide(c.into());
        Self {
            x: narrow(x),
            y: narrow(y),
        }
    }

    /// FORCED.
    pub fn x(&self) -> I {
        self.x
    }

    /// FORCED.
    pub fn y(&self) -> I {
        self.y
    }

    /// FORCED: the vector of this direction and of length `distance`, or a
    /// little less.
    ///
    /// GUESS: each component to the nearest, halves away from zero. It could
    /// be cut, or round halves otherwise. It decides only points inside arcs.
    pub fn scale(self, distance: I) -> IntVector<I> {
        let scaled = |component: I| {
            let product = component.into() * distance.into();
            let scaled = match inside() {
                Inside::Nearest => (product + (product.signum() << 29)) / (1 << 30),
                Inside::Down => product >> 30,
            };
            scaled.into()
        };
        IntVector::new(scaled(self.x), scaled(self.y))
    }
}
