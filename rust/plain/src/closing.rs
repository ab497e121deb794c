//! Document 02, request 12: "Boundaries that close".
//!
//! "For every path accepted, in either kind, at each point of the plane as many
//! edges start as end, unless a join's arc has one end at the centre and one
//! elsewhere."

use crate::arcs::{rotations, rotations_of_circle, Edge, Sweep};
use crate::chains::{trace, Pen};
use crate::contacts::Vertex;
use crate::numbers::Point;

/// The first point, by x and then by y, at which not as many edges start as
/// end, if there is one.
pub fn unbalanced(edges: &[Edge]) -> Option<[i32; 2]> {
    let mut starts: Vec<[i32; 2]> = edges.iter().map(|&[x, y, _, _]| [x, y]).collect();
    let mut ends: Vec<[i32; 2]> = edges.iter().map(|&[_, _, x, y]| [x, y]).collect();
    starts.sort_unstable();
    ends.sort_unstable();
    let (start, end) = starts.into_iter().zip(ends).find(|(a, b)| a != b)?;
    Some(start.min(end))
}

/// A path's edges, and what was seen while they were drawn.
#[derive(Clone, Debug, Default, PartialEq, Eq)]
pub struct Watched {
    pub edges: Vec<Edge>,
    /// "A join's arc has one end at the centre and one elsewhere."
    pub stray: bool,
    /// The most rotations that an arc took.
    pub rotations: usize,
}

impl Pen for Watched {
    fn edge(&mut self, from: Point, to: Point) {
        self.edges.edge(from, to);
    }

    fn arc(&mut self, step: Point, centre: Point, from: Point, to: Point, aligned: Sweep) {
        let taken = rotations(step, centre, from, to, aligned);
        self.rotations = self.rotations.max(taken);
        self.edges.arc(step, centre, from, to, aligned);
    }

    fn circle(&mut self, step: Point, centre: Point, radius: i64) {
        let taken = rotations_of_circle(step, centre, radius);
        self.rotations = self.rotations.max(taken);
        self.edges.circle(step, centre, radius);
    }

    fn join_arc(&mut self, step: Point, centre: Point, from: Point, to: Point, aligned: Sweep) {
        self.stray |= (from == centre) != (to == centre);
        self.arc(step, centre, from, to, aligned);
    }
}

/// A path drawn and watched.
pub fn watched(path: &[Vertex], grade: u32) -> Watched {
    let mut watched = Watched::default();
    trace(path, grade, &mut watched, |_| ());
    watched
}

#[cfg(test)]
mod tests {
    use super::*;
    use crate::arcs::MOST_ROTATIONS;
    use crate::chains::walk;
    use crate::random::Random;

    fn path(triples: &[[i64; 3]]) -> Vec<Vertex> {
        let vertex = |&[x, y, radius]: &[i64; 3]| Vertex::new(x, y, radius);
        triples.iter().map(vertex).collect()
    }

    #[test]
    fn starts_and_ends_are_counted_at_each_point() {
        let square = [[0, 0, 5, 0], [5, 5, 0, 5], [5, 0, 5, 5], [0, 5, 0, 0]];
        assert_eq!(unbalanced(&square), None);
        assert_eq!(unbalanced(&square[..3]), Some([0, 0]));
        assert_eq!(unbalanced(&[[0, 0, 5, 0], [0, 0, 5, 0]]), Some([0, 0]));
        assert_eq!(unbalanced(&[[5, 0, 0, 0], [5, 0, 9, 9]]), Some([0, 0]));
        assert_eq!(unbalanced(&[[0, 0, 5, 0], [5, 0, 0, 0]]), None);
        assert_eq!(unbalanced(&[]), None);
    }

    #[test]
    fn a_watched_path_has_its_own_edges() {
        let path = path(&[[0, 0, 5], [20, 0, 5], [40, 9, 5], [41, 9, 30]]);
        for grade in 1..=8 {
            let watched = watched(&path, grade);
            assert_eq!(watched.edges, walk(&path, grade).edges);
            assert!(!watched.stray && unbalanced(&watched.edges).is_none());
        }
    }

    /// Thin steps away and back leave a last section whose end has another
    /// radius than the section that goes on from there.
    #[test]
    fn the_exception_is_reached_by_thin_steps_away_and_back() {
        let small = path(&[[0, 0, 2], [0, 2, 1], [0, 0, 0], [0, 2, 0], [1, 0, 2]]);
        let wide = path(&[
            [0, 0, 3],
            [-463, 487, 0],
            [0, 0, 0],
            [-463, 487, 1],
            [0, 0, 100],
        ]);
        for grade in 1..=8 {
            for path in [&small, &wide] {
                let watched = watched(path, grade);
                assert!(watched.stray && unbalanced(&watched.edges).is_some());
            }
        }
        let away = watched(&small[..3], 1);
        assert!(!away.stray && unbalanced(&away.edges).is_none());
    }

    /// A pen for caps alone: how many arcs of theirs have one end at the centre
    /// and one elsewhere, and how many have both there.
    #[derive(Default)]
    struct Caps {
        stray: usize,
        shut: usize,
    }

    impl Pen for Caps {
        fn edge(&mut self, _: Point, _: Point) {}

        fn arc(&mut self, _: Point, centre: Point, from: Point, to: Point, _: Sweep) {
            self.stray += ((from == centre) != (to == centre)) as usize;
            self.shut += (from == centre && to == centre) as usize;
        }

        fn circle(&mut self, _: Point, _: Point, _: i64) {}

        fn join_arc(&mut self, _: Point, _: Point, _: Point, _: Point, _: Sweep) {}
    }

    #[test]
    fn caps_never_have_the_exception() {
        let mut random = Random::new(28);
        let mut caps = Caps::default();
        for _ in 0..50_000 {
            let side = random.pick(&[2, 4, 9, 300]);
            let wide = random.pick(&[2, 3, 60]);
            let vertex = |random: &mut Random| {
                let (x, y) = (random.between(-side, side), random.between(-side, side));
                Vertex::new(x, y, random.between(0, wide))
            };
            let path: Vec<Vertex> = (0..6).map(|_| vertex(&mut random)).collect();
            trace(&path, 1, &mut caps, |_| ());
        }
        assert_eq!(caps.stray, 0);
        assert!(caps.shut > 1_000);
    }

    #[test]
    fn a_circle_takes_as_many_rotations_as_its_half_turn() {
        let lone = path(&[[0, 0, 1 << 28]]);
        let most = [3, 6, 12, 25, 50, 100, 201, 402];
        for (grade, count) in (1..).zip(most) {
            assert_eq!(watched(&lone, grade).rotations, count);
            assert!(count < MOST_ROTATIONS);
        }
        assert_eq!(watched(&path(&[[0, 0, 1]]), 8).rotations, 0);
    }
}
