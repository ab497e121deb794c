//! Document 01, "Contacts", and covering from "Chains".

use crate::numbers::{signed, Length, Point};

/// A vertex.
#[derive(Clone, Copy)]
pub struct Vertex {
    pub centre: Point,
    pub radius: i64,
}

impl Vertex {
    #[inline(always)]
    pub fn new([x, y, radius]: [i32; 3]) -> Vertex {
        Vertex {
            centre: Point::new(x as i64, y as i64),
            radius: radius as i64,
        }
    }
}

/// Two vertices and the contacts between them, left and right.
#[derive(Clone, Copy)]
pub struct Section {
    pub a: Vertex,
    pub b: Vertex,
    pub a_left: Point,
    pub a_right: Point,
    pub b_left: Point,
    pub b_right: Point,
}

impl Section {
    /// The section of a step that is drawn; `squared` is its squared length.
    #[inline(always)]
    pub fn new(a: Vertex, b: Vertex, squared: u64) -> Section {
        let (v, delta) = (b.centre - a.centre, a.radius - b.radius);
        let shift = (squared.leading_zeros() - 1) / 2;
        let tangent = Length::new((squared - (delta * delta) as u64) << (2 * shift)).root();
        let along = Point::new((delta * v.x) << shift, (delta * v.y) << shift);
        let across = Point::new(-v.y * tangent, v.x * tangent);
        let (left, right) = (along + across, along - across);
        let divisor = squared << shift;
        let contact = |vertex: Vertex, numerator: Point| {
            vertex.centre
                + Point::new(
                    quotient(vertex.radius, numerator.x, divisor),
                    quotient(vertex.radius, numerator.y, divisor),
                )
        };
        Section {
            a,
            b,
            a_left: contact(a, left),
            a_right: contact(a, right),
            b_left: contact(b, left),
            b_right: contact(b, right),
        }
    }

    /// Whether it covers a vertex's circle. The side at the end comes first: a
    /// path that goes on lies outside it.
    #[inline(always)]
    pub fn covers(&self, circle: Vertex) -> bool {
        let [a_left, b_left] = [self.a_left, self.b_left];
        let [a_right, b_right] = [self.a_right, self.b_right];
        let turn = (b_left - a_left).cross(b_right - b_left);
        let within = |from: Point, to: Point| {
            let side = to - from;
            let inward = signed(side.cross(circle.centre - from), turn);
            inward >= 0 && {
                let times = inward as u64 / circle.radius.max(1) as u64;
                circle.radius == 0 || times >= 1 << 31 || times * times >= side.squared()
            }
        };
        turn != 0
            && within(b_left, b_right)
            && within(a_left, b_left)
            && within(b_right, a_right)
            && within(a_right, a_left)
    }
}

/// A radius times a numerator over the divisor, nearest, halves away from zero.
#[inline(always)]
fn quotient(radius: i64, numerator: i64, divisor: u64) -> i64 {
    let product = radius as u128 * numerator.unsigned_abs() as u128;
    let low = product as u64;
    let whole = match (product >> 64) as u64 {
        0 => low / divisor,
        _ => (product / divisor as u128) as u64,
    };
    let rest = low.wrapping_sub(whole.wrapping_mul(divisor));
    signed((whole + (rest >= divisor - rest) as u64) as i64, numerator)
}
