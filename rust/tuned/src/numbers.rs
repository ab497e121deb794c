//! Document 01, "Numbers underneath". No root and no direction divides: they go
//! by a reciprocal that is a little low, and one exact test where that matters.

use std::ops::{Add, Sub};

/// 2^30, the length of a direction.
const UNIT: i64 = 1 << 30;

/// A point, a ray or a direction.
#[derive(Clone, Copy, PartialEq)]
pub struct Point {
    pub x: i64,
    pub y: i64,
}

impl Point {
    pub const ORIGIN: Point = Point::new(0, 0);

    pub const fn new(x: i64, y: i64) -> Point {
        Point { x, y }
    }

    #[inline(always)]
    pub const fn cross(self, other: Point) -> i64 {
        self.x * other.y - self.y * other.x
    }

    #[inline(always)]
    pub const fn dot(self, other: Point) -> i64 {
        self.x * other.x + self.y * other.y
    }

    pub const fn squared(self) -> u64 {
        self.dot(self) as u64
    }

    /// Rotated by a step, each component divided by 2^30 towards zero.
    #[inline(always)]
    pub const fn rotated(self, step: Point) -> Point {
        Point::new(
            (step.x * self.x - step.y * self.y) / UNIT,
            (step.y * self.x + step.x * self.y) / UNIT,
        )
    }

    /// A direction scaled by a radius, each component the nearest whole number,
    /// halves away from zero; and the centre added.
    #[inline(always)]
    pub const fn scaled(self, radius: i64, centre: Point) -> Point {
        Point::new(
            nearest(self.x * radius, centre.x),
            nearest(self.y * radius, centre.y),
        )
    }
}

impl Add for Point {
    type Output = Point;

    #[inline(always)]
    fn add(self, other: Point) -> Point {
        Point::new(self.x + other.x, self.y + other.y)
    }
}

impl Sub for Point {
    type Output = Point;

    #[inline(always)]
    fn sub(self, other: Point) -> Point {
        Point::new(self.x - other.x, self.y - other.y)
    }
}

/// A number over 2^30, nearest, halves away from zero, and another added.
#[inline(always)]
const fn nearest(number: i64, more: i64) -> i64 {
    (number + (number >> 63) + (more * UNIT + UNIT / 2)) >> 30
}

/// The upper half of a product.
#[inline(always)]
const fn high(a: u64, b: u64) -> u64 {
    (a as u128 * b as u128 >> 64) as u64
}

/// One over the root, times 2^15, of numbers from 1/4 to 1 by their first eleven
/// places, each for the middle of those that begin so.
static SEEDS: [u16; 1536] = {
    let mut seeds = [0; 1536];
    let mut place = 0;
    while place < 1536 {
        let middle = 2 * (place as u64 + 512) + 1;
        seeds[place] = ((1 << 42) / middle).isqrt() as u16;
        place += 1;
    }
    seeds
};

/// A number above 0 and one over its root: the number times 4^`level` has 63 or
/// 64 places, and `reciprocal` is 2^94 over the root of that, at most one part in
/// 2^41 too low and never too high.
#[derive(Clone, Copy)]
pub struct Length {
    squared: u64,
    level: u32,
    reciprocal: u64,
}

impl Length {
    /// By two of Newton's steps, which never come out too high.
    #[inline(always)]
    pub fn new(squared: u64) -> Length {
        let level = squared.leading_zeros() / 2;
        let number = squared << (2 * level);
        let seed = SEEDS[(number >> 53) as usize - 512] as u64;
        let rest = (3 << 62) - (number >> 32) * (seed * seed);
        let nearer = (seed * (rest >> 32)) >> 15;
        let rest = (3 << 62) - high(number, nearer * nearer);
        Length {
            squared,
            level,
            // one less than the product's, which was rounded up and then down
            reciprocal: (nearer as u128 * rest as u128 >> 32) as u64 - 1,
        }
    }

    /// The root of the number, which has at most 63 places.
    #[inline(always)]
    pub fn root(self) -> i64 {
        let number = self.squared << (2 * self.level);
        let root = high(number, self.reciprocal) >> (30 + self.level);
        let more = (root + 1) * (root + 1) <= self.squared;
        (root + more as u64) as i64
    }

    /// The direction of a ray of this squared length.
    #[inline(always)]
    pub fn direction(self, ray: Point) -> Point {
        Point::new(self.component(ray.x), self.component(ray.y))
    }

    /// The largest n with n²·s ≤ coordinate²·2^60. What the reciprocal gives is
    /// less than one part in 2^12 of 1 too low.
    #[inline(always)]
    fn component(self, coordinate: i64) -> i64 {
        let size = coordinate.unsigned_abs();
        let product = (size << self.level) as u128 * self.reciprocal as u128;
        let mut part = (product >> 64) as u64;
        if product as u64 >> 52 == 0xfff {
            let above = (part + 1) * (part + 1);
            let most = (size * size) as u128 * (1 << 60);
            part += (above as u128 * self.squared as u128 <= most) as u64;
        }
        signed(part as i64, coordinate)
    }
}

/// A size with the sign of another number.
#[inline(always)]
pub const fn signed(size: i64, like: i64) -> i64 {
    let sign = like >> 63;
    (size ^ sign) - sign
}

/// The steps of grades 1 to 8.
pub const STEPS: [Point; 8] = [
    Point::new(644245094, 858993459),
    Point::new(947419256, 505290270),
    Point::new(1040703614, 264305679),
    Point::new(1065385856, 133695480),
    Point::new(1071646718, 67043391),
    Point::new(1073217663, 33546241),
    Point::new(1073610759, 16776192),
    Point::new(1073709056, 8388480),
];
