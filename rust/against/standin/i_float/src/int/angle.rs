use super::number::int::IntNumber;
use super::unit_vector::UnitIntVector;
use crate::guess::{between, inside, Between, Inside};
use std::f64::consts::TAU;

/// OWN: units in one turn, and in a length of 1.
const TURN: f64 = (1u64 << 32) as f64;
const UNIT: f64 = (1u64 << 30) as f64;

/// An angle in units of 2^-32 turn. FORCED: the unit, by the text's
/// `ArcOptions::MIN_STEP` ("1/1024 turn" is 2^22 units) and by the wrapping
/// negation of its bits; copying, comparing and printing.
#[derive(Clone, Copy, Debug, PartialEq, Eq)]
pub struct Angle(u32);

impl Angle {
    /// How far, in units, `between` may be off. FORCED: a `u32`; small enough
    /// that twice it and 12,296 stay below 2^22. GUESS: 4. It decides only how
    /// many points an arc has.
    pub const MAX_ERROR: u32 = 4;

    /// FORCED.
    pub const fn from_bits(bits: u32) -> Self {
        Self(bits)
    }

    /// FORCED.
    pub const fn bits(self) -> u32 {
        self.0
    }

    /// FORCED: the counterclockwise turn that takes `from` to `to`, 0 where
    /// the two are equal (builder_join.rs: "Coincident directions can mean
    /// either a collapsed minor arc or a full major arc").
    ///
    /// GUESS: to the nearest unit. It could be off by some units: that decides
    /// how many points an arc has, and whether a Major arc of a very small
    /// angle is a full circle. Document 01 sets such arcs aside.
    pub fn between<I: IntNumber>(from: UnitIntVector<I>, to: UnitIntVector<I>) -> Self {
        if from == to {
            return Self(0);
        }
        let (ax, ay, bx, by) = (
            from.x().into(),
            from.y().into(),
            to.x().into(),
            to.y().into(),
        );
        let (cross, dot) = (ax * by - ay * bx, ax * bx + ay * by);
        let units = (cross as f64).atan2(dot as f64) / TAU * TURN;
        let nearest_past = |zero: f64| {
            if units.abs() <= zero {
                0.0
            } else {
                units.round()
            }
        };
        let units = match between() {
            Between::Nearest => units.round(),
            Between::Down => units.floor(),
            Between::Zero600 => nearest_past(600.0),
            Between::Zero30000 => nearest_past(30_000.0),
        };
        Self(units as i64 as u32)
    }

    /// FORCED: the cosine in units of 2^-30 (arc/integer.rs adds "eight Q30
    /// units" to it). GUESS: to the nearest. It decides only whether a small
    /// arc looks for points.
    pub fn cos(self) -> i32 {
        (self.radians().cos() * UNIT).round() as i32
    }

    /// UNREACHED: mitred joins.
    pub fn sin_cos(self) -> (i32, i32) {
        unreachable!("mitred joins")
    }

    /// OWN.
    fn radians(self) -> f64 {
        self.0 as i32 as f64 / TURN * TAU
    }
}

/// A rotation. FORCED: name; what it is made from and asked for.
pub struct Rotation<I: IntNumber> {
    cos: I,
    sin: I,
    angle: Angle,
}

impl<I: IntNumber> Rotation<I> {
    /// FORCED: a rotation by about the angle, off by at most one part in
    /// 2^`precision`.
    ///
    /// GUESS: as near as can be whatever the precision, cut towards zero so
    /// that no rotation lengthens. It decides only points inside arcs.
    pub fn with_precision(angle: Angle, _precision: u32) -> Self {
        let (sin, cos) = angle.radians().sin_cos();
        let cut = |size: f64| I::from_wide(((size * (UNIT - 1.0)) as i64).into());
        Self {
            cos: cut(cos),
            sin: cut(sin),
            angle,
        }
    }

    /// FORCED: the angle that the rotation has. GUESS: to within one unit.
    pub fn angle(&self) -> Angle {
        self.angle
    }

    /// FORCED: the direction turned, not longer than it was (arc/integer.rs:
    /// "Output length never exceeds the starting length").
    ///
    /// GUESS: both components cut towards zero, as in document 01. It decides
    /// only points inside arcs.
    pub fn apply(&self, direction: UnitIntVector<I>) -> UnitIntVector<I> {
        let (c, s) = (self.cos.into(), self.sin.into());
        let (x, y) = (direction.x().into(), direction.y().into());
        let cut = |number: i64| match inside() {
            Inside::Nearest => number / (1 << 30),
            Inside::Down => number >> 30,
        };
        UnitIntVector::of(cut(c * x - s * y), cut(s * x + c * y))
    }
}
