//! In the place of a file that names the overlay engine.

use crate::mesh::int::style::IntStrokeStyle;
use i_float::int::number::{int::IntNumber, wide_int::WideIntNumber};

/// FORCED: "radius `ceil(max(width, 0) / 2)`", says stroke/offset.rs.
pub(super) fn stroke_radius<I: IntNumber>(style: &IntStrokeStyle<I>) -> I {
    I::from_wide((style.width.max(I::ZERO).to_wide() + I::Wide::ONE) / I::Wide::TWO)
}
