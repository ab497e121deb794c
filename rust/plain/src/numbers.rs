//! Document 01, "Numbers underneath".

use std::ops::{Add, Sub};

/// 2^30, the length of a direction before its components are cut.
pub const UNIT: i64 = 1 << 30;

/// A point of the plane, a ray between two points, or a direction.
#[derive(Clone, Copy, Debug, Default, PartialEq, Eq)]
pub struct Point {
    pub x: i64,
    pub y: i64,
}

impl Point {
    pub const ORIGIN: Point = Point::new(0, 0);

    pub const fn new(x: i64, y: i64) -> Point {
        Point { x, y }
    }

    /// The cross product: positive if `other` lies counterclockwise of `self`.
    pub const fn cross(self, other: Point) -> i64 {
        self.x * other.y - self.y * other.x
    }

    /// The dot product: positive if both look the same way.
    pub const fn dot(self, other: Point) -> i64 {
        self.x * other.x + self.y * other.y
    }

    /// The squared length.
    pub const fn squared(self) -> u64 {
        self.dot(self) as u64
    }
}

impl Add for Point {
    type Output = Point;

    fn add(self, other: Point) -> Point {
        Point::new(self.x + other.x, self.y + other.y)
    }
}

impl Sub for Point {
    type Output = Point;

    fn sub(self, other: Point) -> Point {
        Point::new(self.x - other.x, self.y - other.y)
    }
}

/// Numbers underneath, integer root: "the largest whole number whose square
/// is not above the argument".
pub const fn integer_root(n: u64) -> u64 {
    n.isqrt()
}

/// Numbers underneath, `mul_div`: "The product needs two 64-bit limbs", here
/// the high one and the low one.
pub const fn product(a: u64, b: u64) -> (u64, u64) {
    let product = a as u128 * b as u128;
    ((product >> 64) as u64, product as u64)
}

/// Numbers underneath, `mul_div`: "the product over the divisor, nearest
/// whole number, halves away from zero, sign worked out apart". The divisor
/// is above 0. Document 02, request 7: "whether the division left nothing
/// over" stands beside it.
pub const fn mul_div(a: i64, b: i64, divisor: i64) -> (i64, bool) {
    let divisor = divisor as u64;
    let (high, low) = product(a.unsigned_abs(), b.unsigned_abs());
    let quotient = if high == 0 {
        low / divisor
    } else {
        (((high as u128) << 64 | low as u128) / divisor as u128) as u64
    };
    let rest = low.wrapping_sub(quotient.wrapping_mul(divisor));
    let size = quotient as i64 + (rest >= divisor - rest) as i64;
    let value = if (a < 0) != (b < 0) { -size } else { size };
    (value, rest == 0)
}

/// Numbers underneath, direction: "each component has the sign of its
/// coordinate and, as size, the largest n with n²·s ≤ coordinate²·2^60".
pub const fn direction(ray: Point) -> Point {
    let squared = ray.squared();
    Point::new(component(ray.x, squared), component(ray.y, squared))
}

/// One component of a direction: n²·s ≤ c²·2^60 says that n² is not above the
/// whole part of c²·2^60 / s, so n is its integer root.
const fn component(coordinate: i64, squared: u64) -> i64 {
    let size = coordinate.unsigned_abs() as u128;
    let root = integer_root((((size * size) << 60) / squared as u128) as u64) as i64;
    if coordinate < 0 {
        -root
    } else {
        root
    }
}

/// Numbers underneath, step: "Step of grade k: the direction of
/// (4^k - 1, 2^(k+1))".
pub const fn step_of_grade(grade: u32) -> Point {
    direction(Point::new((1 << (2 * grade)) - 1, 1 << (grade + 1)))
}

/// Numbers underneath, rotating: "(cx - sy, sx + cy), each divided by 2^30
/// towards zero". The step (c, s) is (step.x, step.y).
pub const fn rotate(step: Point, v: Point) -> Point {
    Point::new(
        (step.x * v.x - step.y * v.y) / UNIT,
        (step.y * v.x + step.x * v.y) / UNIT,
    )
}

/// Numbers underneath, scaling: "`mul_div` by the radius over 2^30".
pub const fn scale(component: i64, radius: i64) -> i64 {
    mul_div(component, radius, UNIT).0
}

#[cfg(test)]
mod tests {
    use super::*;
    use crate::random::Random;

    #[test]
    fn roots_of_the_document() {
        assert_eq!([0, 15, 16].map(integer_root), [0, 3, 4]);
    }

    #[test]
    fn a_root_is_the_largest_whole_number_with_a_square_not_above() {
        let mut random = Random::new(1);
        let check = |n: u64| {
            let root = integer_root(n) as u128;
            assert!(root * root <= n as u128 && (root + 1) * (root + 1) > n as u128);
        };
        for bit in 0..64 {
            let power = 1u64 << bit;
            check(power - 1);
            check(power);
            check(power + 1);
        }
        for _ in 0..10_000 {
            let bits = random.below(64);
            check(random.word() >> bits);
        }
        check(u64::MAX);
    }

    #[test]
    fn a_product_is_its_two_limbs() {
        assert_eq!(product(3, 5), (0, 15));
        assert_eq!(product(1 << 32, 1 << 32), (1, 0));
        assert_eq!(product(u64::MAX, u64::MAX), (u64::MAX - 1, 1));
    }

    #[test]
    fn quotients_of_the_document() {
        assert_eq!(mul_div(5, 3, 2), (8, false));
        assert_eq!(mul_div(-5, 3, 2), (-8, false));
        assert_eq!(mul_div(5, -3, 2), (-8, false));
        assert_eq!(mul_div(-5, -3, 2), (8, false));
        assert_eq!(mul_div(1, -1, 3), (0, false));
        assert_eq!(mul_div(6, -2, 3), (-4, true));
        assert_eq!(mul_div(0, 5, 7), (0, true));
    }

    #[test]
    fn a_quotient_is_nearest_with_halves_away_from_zero() {
        let mut random = Random::new(2);
        for _ in 0..10_000 {
            let bits = random.between(1, 61);
            let divisor = 1 + random.below(1 << bits) as i64;
            let a = random.between(-(1 << 28), 1 << 28);
            let b = random.between(-divisor, divisor);
            let (q, exact) = mul_div(a, b, divisor);
            let q = q as i128;
            let twice = 2 * (q * divisor as i128 - a as i128 * b as i128);
            let away = twice * q.signum();
            assert!(-(divisor as i128) < away && away <= divisor as i128);
            assert_eq!(exact, twice == 0);
        }
    }

    #[test]
    fn directions_of_the_document() {
        let direction = |x, y| direction(Point::new(x, y));
        assert_eq!(direction(3, 4), Point::new(644245094, 858993459));
        assert_eq!(direction(0, -7), Point::new(0, -1073741824));
        assert_eq!(direction(-3, 4), Point::new(-644245094, 858993459));
    }

    #[test]
    fn a_component_is_the_largest_that_fits() {
        let mut random = Random::new(3);
        for _ in 0..10_000 {
            let bits = random.between(1, 29);
            let mut side = || random.between(-(1 << bits), 1 << bits);
            let ray = Point::new(side(), side());
            if ray == Point::ORIGIN {
                continue;
            }
            let d = direction(ray);
            for (n, c) in [(d.x, ray.x), (d.y, ray.y)] {
                let s = ray.squared() as u128;
                let most = (c.unsigned_abs() as u128).pow(2) << 60;
                let n = n.unsigned_abs() as u128;
                assert!(n * n * s <= most && most < (n + 1) * (n + 1) * s);
            }
            assert!(d.x * ray.x >= 0 && d.y * ray.y >= 0);
        }
    }

    #[test]
    fn grade_one_steps_by_three_and_four() {
        assert_eq!(step_of_grade(1), direction(Point::new(3, 4)));
        assert_eq!(step_of_grade(8), direction(Point::new(65535, 512)));
    }

    #[test]
    fn rotation_cuts_towards_zero() {
        let step = step_of_grade(1);
        assert_eq!(rotate(step, Point::new(UNIT, 0)), step);
        assert_eq!(
            rotate(step, Point::new(-UNIT, 0)),
            Point::new(-step.x, -step.y)
        );
        assert_eq!(rotate(step, Point::new(1, 1)), Point::new(0, 1));
        assert_eq!(rotate(step, Point::new(-1, -1)), Point::new(0, -1));
    }

    #[test]
    fn scaling_rounds_halves_away_from_zero() {
        assert_eq!(scale(UNIT / 2, 1), 1);
        assert_eq!(scale(-UNIT / 2, 1), -1);
        assert_eq!(scale(UNIT / 2 - 1, 1), 0);
        assert_eq!(scale(UNIT, 1 << 28), 1 << 28);
    }
}
