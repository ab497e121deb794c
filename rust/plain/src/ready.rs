//! Document 02, request 2, "Circles from a ready table": draw, with the half
//! turn of directions at the finest grade ready. The rules are [`crate::arcs`]';
//! this is only for measuring against.

use crate::arcs::{self, edge, ends_of_halves, interior, Course, Edge, Sweep};
use crate::chains::{trace, Pen};
use crate::contacts::Vertex;
use crate::numbers::{scale, step_of_grade, Point, UNIT};
use std::sync::OnceLock;

/// Request 2: "the finest grade".
pub const FINEST: u32 = 8;

/// Request 2: "each pair the rotation of the pair before it, the first being
/// the rotation of the axis".
pub fn half_turn() -> &'static [[i32; 2]] {
    static PAIRS: OnceLock<Vec<[i32; 2]>> = OnceLock::new();
    let narrow = |direction: Point| [direction.x as i32, direction.y as i32];
    PAIRS.get_or_init(|| {
        let (right, left) = (Point::new(UNIT, 0), Point::new(-UNIT, 0));
        interior(step_of_grade(FINEST), right, left)
            .map(narrow)
            .collect()
    })
}

/// Takes down edges, circles from the table. It goes by the finest step alone.
pub struct Ready {
    pub edges: Vec<Edge>,
}

impl Ready {
    /// Half a circle: the pairs, or the same by half a turn.
    fn half(&mut self, centre: Point, radius: i64, from: Point, to: Point, sign: i64) {
        let mut reached = from;
        for &[x, y] in half_turn() {
            let (x, y) = (sign * x as i64, sign * y as i64);
            let next = centre + Point::new(scale(x, radius), scale(y, radius));
            edge(&mut self.edges, reached, next);
            reached = next;
        }
        edge(&mut self.edges, reached, to);
    }
}

impl Pen for Ready {
    fn edge(&mut self, from: Point, to: Point) {
        edge(&mut self.edges, from, to);
    }

    fn arc(&mut self, step: Point, centre: Point, from: Point, to: Point, aligned: Sweep) {
        match arcs::course(centre, from, to, aligned) {
            Course::Circle(radius) => {
                self.circle(step, centre, radius);
                edge(&mut self.edges, from, to);
            }
            _ => arcs::arc(&mut self.edges, step, centre, from, to, aligned),
        }
    }

    fn circle(&mut self, _step: Point, centre: Point, radius: i64) {
        if radius <= 1 {
            return;
        }
        let (right, left) = ends_of_halves(centre, radius);
        self.half(centre, radius, right, left, 1);
        self.half(centre, radius, left, right, -1);
    }
}

/// A path's edges at the finest grade.
pub fn edges(path: &[Vertex]) -> Vec<Edge> {
    let mut pen = Ready { edges: Vec::new() };
    trace(path, FINEST, &mut pen, |_| ());
    pen.edges
}

/// Those of lent numbers, three a vertex, into room that is long enough; and how
/// many they are.
pub fn draw(numbers: &[i32], room: &mut [i32]) -> usize {
    let vertex = |n: &[i32]| Vertex::new(n[0] as i64, n[1] as i64, n[2] as i64);
    let path: Vec<Vertex> = numbers.chunks_exact(3).map(vertex).collect();
    let edges = edges(&path);
    room[..4 * edges.len()].copy_from_slice(edges.as_flattened());
    edges.len()
}

#[cfg(test)]
mod tests {
    use super::*;
    use crate::chains::walk;
    use crate::random::Random;

    #[test]
    fn a_half_turn_is_402_pairs() {
        let pairs = half_turn();
        assert_eq!(pairs.len(), 402);
        assert_eq!(pairs[0], [1073709056, 8388480]);
        assert_eq!(pairs[401], [-1073740839, 1056154]);
    }

    #[test]
    fn from_the_table_not_one_edge_differs() {
        let mut random = Random::new(29);
        for radius in (2..2000).chain([1 << 20, 1 << 28]) {
            let mut place = || random.between(-(1 << 28), 1 << 28);
            let vertex = Vertex::new(place(), place(), radius);
            let path = [vertex];
            assert_eq!(edges(&path), walk(&path, FINEST).edges, "radius {radius}");
        }
    }
}
