//! Document 01, "Arcs".

use crate::numbers::{direction, integer_root, rotate, scale, Point};

/// An edge as it is lent: x and y of its start, x and y of its end.
pub type Edge = [i32; 4];

/// Arcs: an arc is Minor or Major.
#[derive(Clone, Copy, Debug, PartialEq, Eq)]
pub enum Sweep {
    Minor,
    Major,
}

/// Arcs: the arc stops "after 1,536 rotations in any case".
pub const MOST_ROTATIONS: usize = 1536;

/// Arcs: "Edges of no length are not emitted."
pub fn edge(out: &mut Vec<Edge>, from: Point, to: Point) {
    if from != to {
        out.push([from.x as i32, from.y as i32, to.x as i32, to.y as i32]);
    }
}

/// Arcs: "By the cross product of the two rays: positive is Minor, negative
/// Major; zero with a negative dot product is Minor; else the caller's
/// choice."
pub fn sweep(from: Point, to: Point, aligned: Sweep) -> Sweep {
    let cross = from.cross(to);
    if cross > 0 {
        Sweep::Minor
    } else if cross < 0 {
        Sweep::Major
    } else if from.dot(to) < 0 {
        Sweep::Minor
    } else {
        aligned
    }
}

/// Arcs: "Let "near" mean that the current direction and the end's have cross
/// and dot products of at least 0."
pub fn near(current: Point, end: Point) -> bool {
    current.cross(end) >= 0 && current.dot(end) >= 0
}

/// Arcs: "the directions reached by rotating the start's direction step after
/// step". "The arc stops before a rotation whose result has cross product
/// with the end at most 0 while the current one is near, and after 1,536
/// rotations in any case."
pub fn interior(step: Point, start: Point, end: Point) -> impl Iterator<Item = Point> {
    let turn = move |&current: &Point| {
        let next = rotate(step, current);
        let stop = near(current, end) && next.cross(end) <= 0;
        (!stop).then_some(next)
    };
    std::iter::successors(Some(start), turn)
        .skip(1)
        .take(MOST_ROTATIONS)
}

/// Arcs: what becomes of an arc.
#[derive(Clone, Copy, Debug, PartialEq, Eq)]
pub enum Course {
    /// It has no edges.
    Nothing,
    /// A circle of this radius, and the straight edge from start to end.
    Circle(i64),
    /// From the one direction to the other, the points between them so far out.
    Turn(Point, Point, i64),
}

/// Arcs: "A Minor arc between equal points has no edges; no arc with an end at
/// the centre has any. A Major arc whose two directions have cross product 0 or
/// more and dot product above 0 is a circle followed by the straight edge from
/// start to end; the circle's radius is the integer root of the start ray's
/// squared length. Otherwise the interior points are the directions …, then
/// the end contact." They are scaled by that root too (document 02, request 6).
// apart from its callers it would cost an arc's loop some hundredths of its time
#[inline(always)]
pub fn course(centre: Point, from: Point, to: Point, aligned: Sweep) -> Course {
    let (start_ray, end_ray) = (from - centre, to - centre);
    let sweep = sweep(start_ray, end_ray, aligned);
    if sweep == Sweep::Minor && from == to {
        return Course::Nothing;
    }
    if start_ray == Point::ORIGIN || end_ray == Point::ORIGIN {
        return Course::Nothing;
    }
    let (start, end) = (direction(start_ray), direction(end_ray));
    let radius = integer_root(start_ray.squared()) as i64;
    if sweep == Sweep::Major && start.cross(end) >= 0 && start.dot(end) > 0 {
        return Course::Circle(radius);
    }
    Course::Turn(start, end, radius)
}

/// Arcs: the arc "counterclockwise from one contact to another about a
/// vertex". `aligned` is the caller's choice.
pub fn arc(
    out: &mut Vec<Edge>,
    step: Point,
    centre: Point,
    from: Point,
    to: Point,
    aligned: Sweep,
) {
    let mut reached = from;
    match course(centre, from, to, aligned) {
        Course::Nothing => return,
        Course::Circle(radius) => circle(out, step, centre, radius),
        Course::Turn(start, end, radius) => {
            for current in interior(step, start, end) {
                let next = centre + Point::new(scale(current.x, radius), scale(current.y, radius));
                edge(out, reached, next);
                reached = next;
            }
        }
    }
    edge(out, reached, to);
}

/// Arcs: the ends of a circle's two arcs, "centre + (radius, 0)" and "centre -
/// (radius, 0)".
pub fn ends_of_halves(centre: Point, radius: i64) -> (Point, Point) {
    let across = Point::new(radius, 0);
    (centre + across, centre - across)
}

/// Arcs: "A circle of radius 1 or less has no edges; else it is two arcs, from
/// centre + (radius, 0) to centre - (radius, 0) and back."
pub fn circle(out: &mut Vec<Edge>, step: Point, centre: Point, radius: i64) {
    if radius <= 1 {
        return;
    }
    let (right, left) = ends_of_halves(centre, radius);
    arc(out, step, centre, right, left, Sweep::Minor);
    arc(out, step, centre, left, right, Sweep::Minor);
}

/// Arcs: how many rotations an arc takes, or the longer half of the circle that
/// it is.
pub fn rotations(step: Point, centre: Point, from: Point, to: Point, aligned: Sweep) -> usize {
    match course(centre, from, to, aligned) {
        Course::Nothing => 0,
        Course::Circle(radius) => rotations_of_circle(step, centre, radius),
        Course::Turn(start, end, _) => interior(step, start, end).count(),
    }
}

/// Arcs: how many rotations the longer half of a circle takes.
pub fn rotations_of_circle(step: Point, centre: Point, radius: i64) -> usize {
    if radius <= 1 {
        return 0;
    }
    let (right, left) = ends_of_halves(centre, radius);
    let half = |from, to| rotations(step, centre, from, to, Sweep::Minor);
    half(right, left).max(half(left, right))
}

#[cfg(test)]
mod tests {
    use super::*;
    use crate::numbers::{step_of_grade, UNIT};

    fn rotations(grade: u32, start: Point, end: Point) -> usize {
        interior(step_of_grade(grade), start, end).count()
    }

    #[test]
    fn a_half_turn_has_as_many_directions_as_measured() {
        let (right, left) = (Point::new(UNIT, 0), Point::new(-UNIT, 0));
        for (grade, count) in (1..).zip([3, 6, 12, 25, 50, 100, 201, 402]) {
            assert_eq!(rotations(grade, right, left), count);
            assert_eq!(rotations(grade, left, right), count);
        }
    }

    #[test]
    fn a_turn_that_nearly_closes_has_as_many_rotations_as_measured() {
        let right = Point::new(UNIT, 0);
        let below = direction(Point::new(1 << 28, -1));
        for (grade, count) in (1..).zip([6, 12, 25, 50, 100, 201, 402, 804]) {
            assert_eq!(rotations(grade, right, below), count);
        }
    }

    #[test]
    fn sweep_goes_by_the_rays() {
        let right = Point::new(3, 0);
        let sweep = |x, y, aligned| sweep(right, Point::new(x, y), aligned);
        assert_eq!(sweep(0, 1, Sweep::Major), Sweep::Minor);
        assert_eq!(sweep(0, -1, Sweep::Minor), Sweep::Major);
        assert_eq!(sweep(-1, 0, Sweep::Major), Sweep::Minor);
        assert_eq!(sweep(2, 0, Sweep::Major), Sweep::Major);
        assert_eq!(sweep(2, 0, Sweep::Minor), Sweep::Minor);
    }

    #[test]
    fn aligned_arcs_go_by_the_choice() {
        let count = |radius, aligned| {
            let mut out = Vec::new();
            let end = Point::new(radius, 0);
            let step = step_of_grade(1);
            arc(&mut out, step, Point::ORIGIN, end, end, aligned);
            out.len()
        };
        assert_eq!(count(5, Sweep::Minor), 0);
        assert_eq!(count(5, Sweep::Major), 8);
        assert_eq!(count(1, Sweep::Major), 0);
    }

    #[test]
    fn an_end_at_the_centre_leaves_no_edges() {
        let (centre, contact) = (Point::new(7, 7), Point::new(9, 7));
        for (from, to) in [(centre, contact), (contact, centre), (centre, centre)] {
            for aligned in [Sweep::Minor, Sweep::Major] {
                let mut out = Vec::new();
                arc(&mut out, step_of_grade(1), centre, from, to, aligned);
                assert!(out.is_empty());
            }
        }
    }

    #[test]
    fn directions_can_agree_where_rays_do_not() {
        let (from, to) = (
            Point::new((1 << 27) + 1, 1 << 27),
            Point::new(1 << 27, (1 << 27) - 1),
        );
        assert_eq!(sweep(from, to, Sweep::Minor), Sweep::Major);
        assert_eq!(direction(from).cross(direction(to)), 0);
        let mut out = Vec::new();
        let radius = integer_root(from.squared()) as i32;
        arc(
            &mut out,
            step_of_grade(1),
            Point::ORIGIN,
            from,
            to,
            Sweep::Minor,
        );
        assert_eq!(out.len(), 9);
        assert_eq!(out[0][..2], [radius, 0]);
        assert_eq!(
            out[8],
            [from.x as i32, from.y as i32, to.x as i32, to.y as i32]
        );
    }
}
