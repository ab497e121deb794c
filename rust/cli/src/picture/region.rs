//! The region that a sheet's boundary encloses. Where as many edges start as end
//! at each point, the edges chain into closed loops; which of them go on from
//! one another at a point where several meet makes no difference to what is
//! inside.

use super::frame::{Frame, Point};
use super::pen::Pen;
use super::view::View;
use crate::sheet::Sheet;
use std::iter::zip;
use std::mem::replace;

/// What lies this part of a view's width beyond one of its sides is not seen,
/// the width of a line included.
const BEYOND: i64 = 50;

/// The closed loops of a sheet's edges: the points of each, from one back to it.
pub struct Loops(Vec<Vec<Point>>);

impl Loops {
    /// The loops of a sheet, if its edges chain.
    pub fn of(sheet: &Sheet) -> Option<Loops> {
        let edges: Vec<[i32; 4]> = sheet.edges(0..sheet.edge_count()).collect();
        chained(&edges).map(Loops)
    }

    /// The data of an SVG path and how many lines it has. Lines that stay beyond
    /// one side of the view are one line there: what is inside is the same all
    /// over the view.
    pub fn drawn(&self, view: View, tolerance: i64) -> (String, usize) {
        let more = view.frame.width() / BEYOND;
        let seen = view.frame.widened(more, more);
        let mut pen = Pen::new(view, tolerance);
        for points in &self.0 {
            for [start, end] in within(seen, points) {
                pen.line_anywhere(start, end);
            }
        }
        pen.finish()
    }
}

/// The loops that edges chain into, if as many start as end at each point.
fn chained(edges: &[[i32; 4]]) -> Option<Vec<Vec<Point>>> {
    let mut left = Left::of(edges)?;
    let mut loops = Vec::new();
    for first in 0..edges.len() {
        if !left.take(first) {
            continue;
        }
        let [start, mut at] = ends_of(edges[first]);
        let mut points = vec![point_of(start), point_of(at)];
        let mut edge = first;
        while at != start {
            edge = left.take_after(edge)?;
            at = ends_of(edges[edge])[1];
            points.push(point_of(at));
        }
        loops.push(points);
    }
    Some(loops)
}

/// An edge's start and end.
fn ends_of([ax, ay, bx, by]: [i32; 4]) -> [[i32; 2]; 2] {
    [[ax, ay], [bx, by]]
}

/// A point of a sheet, as frames count.
fn point_of([x, y]: [i32; 2]) -> Point {
    Point::of(x, y)
}

/// The edges that are left to be chained.
struct Left<'a> {
    edges: &'a [[i32; 4]],
    taken: Vec<bool>,
    /// The starts in their order, each with its edge.
    starts: Vec<([i32; 2], u32)>,
    /// How many edges of a start were looked at, kept at the first of them.
    looked_at: Vec<u32>,
}

impl Left<'_> {
    /// All edges, if as many start as end at each point.
    fn of(edges: &[[i32; 4]]) -> Option<Left<'_>> {
        let ends = edges.iter().map(|&edge| ends_of(edge));
        let (starts, mut ends): (Vec<_>, Vec<_>) = ends.map(|[start, end]| (start, end)).unzip();
        let mut starts: Vec<_> = zip(starts, 0..).collect();
        starts.sort_unstable();
        ends.sort_unstable();
        let balanced = starts.iter().map(|&(start, _)| start).eq(ends);
        balanced.then_some(Left {
            edges,
            taken: vec![false; edges.len()],
            looked_at: vec![0; edges.len()],
            starts,
        })
    }

    /// Takes an edge, if it is left.
    fn take(&mut self, edge: usize) -> bool {
        !replace(&mut self.taken[edge], true)
    }

    /// Takes an edge that starts where another ends: the next of the sheet, as
    /// mostly it does, or the first that is left there.
    fn take_after(&mut self, edge: usize) -> Option<usize> {
        let [_, at] = ends_of(self.edges[edge]);
        let next = edge + 1;
        if self
            .edges
            .get(next)
            .is_some_and(|&next| ends_of(next)[0] == at)
            && self.take(next)
        {
            return Some(next);
        }
        let first = self.starts.partition_point(|&(start, _)| start < at);
        loop {
            let looked_at = self.looked_at.get_mut(first)?;
            let place = self.starts.get(first + *looked_at as usize);
            let &(_, edge) = place.filter(|(start, _)| *start == at)?;
            *looked_at += 1;
            if self.take(edge as usize) {
                return Some(edge as usize);
            }
        }
    }
}

/// The lines of a loop, with one line for those that stay beyond one side.
fn within(seen: Frame, points: &[Point]) -> Vec<[Point; 2]> {
    let mut lines = Vec::new();
    let Some(&first) = points.first() else {
        return lines;
    };
    let (mut from, mut at, mut sides) = (first, first, beyond(seen, first));
    for &next in &points[1..] {
        sides &= beyond(seen, next);
        if sides == 0 {
            lines.push([from, at]);
            from = at;
            sides = beyond(seen, from) & beyond(seen, next);
        }
        at = next;
    }
    lines.push([from, at]);
    lines.retain(|[start, end]| start != end);
    lines
}

/// The sides of a frame that a point lies beyond, a bit each.
fn beyond(frame: Frame, point: Point) -> u8 {
    let sides = [
        point.x < frame.left,
        point.x > frame.right,
        point.y < frame.low,
        point.y > frame.high,
    ];
    sides.iter().fold(0, |bits, &side| bits << 1 | side as u8)
}

#[cfg(test)]
mod tests {
    use super::{chained, within, Loops};
    use crate::calls;
    use crate::picture::frame::{Frame, Point};
    use crate::sheet::Sheet;

    fn points(loop_of: &[(i32, i32)]) -> Vec<Point> {
        loop_of.iter().map(|&(x, y)| Point::of(x, y)).collect()
    }

    #[test]
    fn edges_in_any_order_chain() {
        let square = [[0, 0, 5, 0], [5, 5, 0, 5], [5, 0, 5, 5], [0, 5, 0, 0]];
        let due = points(&[(0, 0), (5, 0), (5, 5), (0, 5), (0, 0)]);
        assert!(chained(&square) == Some(vec![due]));
        assert!(chained(&square[..3]).is_none());
        assert!(chained(&[]) == Some(vec![]));
    }

    #[test]
    fn two_loops_that_meet_are_both_there() {
        let eight = [
            [0, 0, 1, 1],
            [0, 0, -1, 1],
            [1, 1, 2, 0],
            [2, 0, 0, 0],
            [-1, 1, 0, 0],
        ];
        let due = vec![
            points(&[(0, 0), (1, 1), (2, 0), (0, 0)]),
            points(&[(0, 0), (-1, 1), (0, 0)]),
        ];
        assert!(chained(&eight) == Some(due));
    }

    #[test]
    fn what_stays_beyond_a_side_is_one_line() {
        let seen = Frame::about(Point::of(0, 0), 256 * 10);
        let around = points(&[(0, 0), (20, 0), (20, 5), (30, 9), (20, 30), (0, 30), (0, 0)]);
        let lines = within(seen, &around);
        let due = points(&[(0, 0), (20, 0), (20, 30), (0, 30), (0, 0)]);
        assert!(lines
            .iter()
            .map(|line| line[0])
            .eq(due[..4].iter().copied()));
        let away = points(&[(20, 0), (30, 0), (30, 9), (20, 0)]);
        assert!(within(seen, &away).is_empty());
    }

    /// Numbers from 0 to below a bound, the same at each run.
    fn numbers() -> impl FnMut(i32) -> i32 {
        let mut state = 12345u64;
        move |bound| {
            state = state.wrapping_mul(6364136223846793005).wrapping_add(1);
            ((state >> 33) % bound as u64) as i32
        }
    }

    #[test]
    fn loops_have_each_edge_once() {
        let mut below = numbers();
        for grade in 2..=8 {
            let vertex = |_| [below(900), below(900), 2 + below(90)];
            let path: Vec<[i32; 3]> = (0..40).map(vertex).collect();
            let sheet = calls::keep(path.as_flattened(), grade).unwrap();
            let sheet = Sheet::sound(sheet).unwrap();
            let Loops(loops) = Loops::of(&sheet).unwrap();
            let ends = |a: Point, b: Point| [a.x, a.y, b.x, b.y];
            let pairs = loops.iter().flat_map(|points| points.windows(2));
            let mut drawn: Vec<_> = pairs.map(|pair| ends(pair[0], pair[1])).collect();
            let edge = |[ax, ay, bx, by]: [i32; 4]| ends(Point::of(ax, ay), Point::of(bx, by));
            let mut due: Vec<_> = sheet.edges(0..sheet.edge_count()).map(edge).collect();
            drawn.sort_unstable();
            due.sort_unstable();
            assert!(drawn == due);
        }
    }

    /// How often lines that make loops go about a point of none of them.
    fn winding(lines: &[[Point; 2]], at: Point) -> i32 {
        let turn = |[a, b]: &[Point; 2]| {
            let side = (b.x - a.x) * (at.y - a.y) - (b.y - a.y) * (at.x - a.x);
            match (a.y <= at.y, b.y <= at.y) {
                (true, false) if side > 0 => 1,
                (false, true) if side < 0 => -1,
                _ => 0,
            }
        };
        lines.iter().map(turn).sum()
    }

    #[test]
    fn what_is_inside_is_the_same_all_over_the_view() {
        let mut below = numbers();
        let seen = Frame::about(Point::of(0, 0), 256 * 10);
        for _ in 0..2_000 {
            let point = |_| (below(81) - 40, below(81) - 40);
            let mut corners: Vec<(i32, i32)> = (0..9).map(point).collect();
            corners.push(corners[0]);
            let points = points(&corners);
            let whole: Vec<[Point; 2]> = points.windows(2).map(|p| [p[0], p[1]]).collect();
            let fewer = within(seen, &points);
            for _ in 0..20 {
                // beside every corner; lines through the view are in both
                let at = Point {
                    x: (256 * (below(19) - 9)).into(),
                    y: i64::from(256 * (below(19) - 9)) + 100,
                };
                assert_eq!(winding(&fewer, at), winding(&whole, at));
            }
        }
    }
}
