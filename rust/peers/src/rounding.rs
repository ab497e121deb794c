//! How far a boundary may lie from the true one.

use crate::geos::Shape;

/// Segments of a quarter circle in GEOS' buffers.
pub const SEGMENTS: i32 = 90;

/// How far rounding moves a contact: it is whole, so at most half a unit off in
/// x and in y, and the root that it is scaled by is cut short, which is at least
/// 2^30.5.
pub fn rounded(radius: f64) -> f64 {
    0.5f64.hypot(0.5) + radius * (-30.5f64).exp2()
}

/// How far the middle of an edge lies within an arc of this radius, where the
/// next edge goes on by this angle.
fn sagitta(radius: f64, angle: f64) -> f64 {
    radius * (1.0 - (angle / 2.0).cos())
}

/// How far a boundary with arcs of this radius may lie from the true one: what
/// rounding moves, and the middles of edges at the grade's step and at GEOS'.
pub fn round(radius: f64, grade: u32) -> f64 {
    let power = 4f64.powi(grade as i32);
    let step = (2.0 * power.sqrt()).atan2(power - 1.0);
    let quantum = std::f64::consts::FRAC_PI_2 / SEGMENTS as f64;
    rounded(radius) + sagitta(radius, step) + sagitta(radius, quantum)
}

/// How much of a shape lies farther from another than is allowed. What grows is
/// drawn with corners on its arcs, a little too short.
pub fn beyond(shape: &Shape, other: &Shape, allowed: f64) -> f64 {
    shape.without(&other.grown(1.01 * allowed)).area()
}
