//! Document 01, "Arcs", with request 6 of document 02.

use crate::numbers::{Length, Point};

/// What an arc between aligned rays is.
#[derive(Clone, Copy, PartialEq)]
pub enum Sweep {
    Minor,
    Major,
}

/// A point in one word, so that points are compared and written at once.
#[inline(always)]
const fn packed(point: Point) -> u64 {
    point.x as u32 as u64 | (point.y as u64) << 32
}

/// The edge between two packed points.
#[inline(always)]
const fn unpacked(from: u64, to: u64) -> [i32; 4] {
    [
        from as i32,
        (from >> 32) as i32,
        to as i32,
        (to >> 32) as i32,
    ]
}

/// Whether a direction is at most a right angle before the end. A rotation past
/// the end asks, or one that has more than half a turn before it: neither is one
/// of many, so this stays out of the loop.
#[cold]
#[inline(never)]
fn near(current: Point, end: Point) -> bool {
    current.cross(end) >= 0 && current.dot(end) >= 0
}

/// Where edges go: the room, how many of it are in use, and the step of a grade.
pub struct Pen<'a> {
    pub room: &'a mut [[i32; 4]],
    pub edges: usize,
    pub step: Point,
}

impl Pen<'_> {
    /// Edges of no length are not emitted.
    #[inline(always)]
    pub fn edge(&mut self, from: Point, to: Point) {
        if from != to {
            self.room[self.edges] = [from.x as i32, from.y as i32, to.x as i32, to.y as i32];
            self.edges += 1;
        }
    }

    /// The arc about a centre from one contact to another.
    #[inline]
    pub fn arc(&mut self, centre: Point, from: Point, to: Point, aligned: Sweep) {
        let (first, last) = (from - centre, to - centre);
        let cross = first.cross(last);
        let major = match cross {
            0 => aligned == Sweep::Major && first.dot(last) >= 0,
            _ => cross < 0,
        };
        if from == to && !major || first == Point::ORIGIN || last == Point::ORIGIN {
            return;
        }
        let length = Length::new(first.squared());
        let start = length.direction(first);
        let end = Length::new(last.squared()).direction(last);
        let radius = length.root();
        if major && start.cross(end) >= 0 && start.dot(end) > 0 {
            self.circle(centre, radius);
            self.edge(from, to);
        } else {
            self.turn(centre, radius, [from, to], [start, end]);
        }
    }

    /// From a contact to another, by the directions between theirs. No arc is
    /// stopped by the count of its rotations (document 02, request 12).
    #[inline]
    fn turn(&mut self, centre: Point, radius: i64, ends: [Point; 2], directions: [Point; 2]) {
        let ([from, to], [mut current, end]) = (ends, directions);
        let (step, mut reached) = (self.step, packed(from));
        let mut room = self.room[self.edges..].iter_mut();
        let mut edge = |to: u64| {
            if to != reached {
                *room.next().expect("room for all edges") = unpacked(reached, to);
                reached = to;
            }
        };
        loop {
            let next = current.rotated(step);
            if next.cross(end) <= 0 && near(current, end) {
                break;
            }
            edge(packed(next.scaled(radius, centre)));
            current = next;
        }
        edge(packed(to));
        let left = room.len();
        self.edges = self.room.len() - left;
    }

    /// Two arcs, from due east to due west and back.
    pub fn circle(&mut self, centre: Point, radius: i64) {
        if radius > 1 {
            let ends = [radius, -radius].map(|x| centre + Point::new(x, 0));
            let directions = [1 << 30, -1 << 30].map(|x| Point::new(x, 0));
            self.turn(centre, radius, ends, directions);
            let [east, west] = ends;
            let [start, end] = directions;
            self.turn(centre, radius, [west, east], [end, start]);
        }
    }
}
