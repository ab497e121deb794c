//! In the place of a file that is not at hand.

use super::backend::MeshMath;
use crate::mesh::int::arc::FloatArc;
use i_float::int::{
    angle::Angle, number::int::IntNumber, point::IntPoint, unit_vector::UnitIntVector,
    vector::IntVector,
};

/// UNREACHED: the float mathematics.
#[derive(Clone, Copy)]
pub(crate) struct FloatMath;

impl<I: IntNumber> MeshMath<I> for FloatMath {
    type Arc = FloatArc;
    const MIN_MITER_ANGLE: u32 = 0;

    fn sin_cos(_angle: Angle) -> (i32, i32) {
        unreachable!("float mathematics")
    }

    fn angle_between(_from: UnitIntVector<I>, _to: UnitIntVector<I>) -> Angle {
        unreachable!("float mathematics")
    }

    fn normalize(_vector: IntVector<I>) -> Option<UnitIntVector<I>> {
        unreachable!("float mathematics")
    }

    fn scale(_direction: UnitIntVector<I>, _distance: I) -> IntVector<I> {
        unreachable!("float mathematics")
    }

    fn rotate(_direction: UnitIntVector<I>, _local: IntPoint<I>) -> IntVector<I> {
        unreachable!("float mathematics")
    }

    fn guard_padding(_padding: I::Wide) -> I::Wide {
        unreachable!("float mathematics")
    }
}
