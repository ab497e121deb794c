use super::number::{int::IntNumber, wide_int::WideIntNumber};
use super::unit_vector::UnitIntVector;
use crate::guess::{normal, Normal};

/// A difference of two points. FORCED: name, wide fields, `new`.
#[derive(Clone, Copy, Debug, PartialEq, Eq)]
pub struct IntVector<I: IntNumber> {
    pub x: I::Wide,
    pub y: I::Wide,
}

impl<I: IntNumber> IntVector<I> {
    /// FORCED.
    pub fn new(x: I::Wide, y: I::Wide) -> Self {
        Self { x, y }
    }

    /// FORCED: x·y' - y·x'. The opposite sign would turn every arc and every
    /// join inside out: `arc_sweep_ccw` calls a positive one a minor
    /// counterclockwise arc.
    pub fn cross_product(self, other: Self) -> I::Wide {
        self.x * other.y - self.y * other.x
    }

    /// FORCED: x·x' + y·y'.
    pub fn dot_product(self, other: Self) -> I::Wide {
        self.x * other.x + self.y * other.y
    }

    /// FORCED: x² + y², unsigned, exact. `break_caps` compares it with a
    /// squared difference of radii, and `tangent_offsets` takes its root.
    pub fn sqr_length(self) -> I::WideUInt {
        (self.x * self.x + self.y * self.y).to_uint()
    }

    /// FORCED: nothing for the vector without length, else a direction of
    /// length at most 1 (arc/integer.rs: "input norms are <=1") and at least
    /// 0.99 (the same file on its inputs).
    ///
    /// GUESS: each component is the largest that is not too long, as in
    /// document 01. A faster rule could leave it shorter, or off by some
    /// angle: that the text sends every vector of an axis through a unit one
    /// first (`direction` in math.rs) hints at it. It decides the points
    /// inside arcs, and whether a Major arc of a very small angle is a full
    /// circle.
    pub fn fast_normalize(self) -> Option<UnitIntVector<I>> {
        let (x, y) = (self.x.into(), self.y.into());
        let squared = (x * x + y * y) as u64;
        (squared != 0).then(|| UnitIntVector::of(component(x, squared), component(y, squared)))
    }
}

/// OWN: one component of a direction, `squared` being the squared length.
fn component(coordinate: i64, squared: u64) -> i64 {
    let size = coordinate.unsigned_abs() as u128;
    let square = ((size * size) << 60) / squared as u128;
    let down = (square as u64).isqrt();
    let cut = |bits: u32| down >> (30 - bits) << (30 - bits);
    let size = match normal() {
        Normal::Down => down,
        Normal::Nearest => down + (square > (down * down + down) as u128) as u64,
        Normal::Short => down / 100 * 99,
        Normal::Bits24 => cut(24),
        Normal::Bits16 => cut(16),
    };
    size as i64 * coordinate.signum()
}
