//! How far from its centre the points inside an arc lie.
//!
//! Which points an arc has inside is i_float's word, but not how far out they
//! are: at the integer root of the start contact's squared distance, each
//! coordinate rounded. So far they can be compared.

use crate::labels::{Arc, Kind, Labelled};
use plain::arcs::Edge;
use plain::numbers::{integer_root, Point};

/// Directions are cut, rotation after rotation, so far out points are off by
/// more than their rounding. Arcs about a start contact up to here are compared.
const FARTHEST: u64 = 1 << 12;

/// Half a unit in each coordinate, and a little for the cut directions.
const ROUNDING: f64 = 0.76;

/// Whether every point inside an arc of `edges` lies as far out as its start
/// contact, where `labelled` has the path's arcs. An arc that may go on end to
/// end into another is passed over.
pub fn as_far_out(edges: &[(Edge, Kind)], labelled: &Labelled) -> bool {
    runs(edges).all(|run| match arc_of(run, &labelled.arcs) {
        Some(arc) => inside(run).all(|point| lies_out(arc, point)),
        None => true,
    })
}

/// The end-to-end runs of arc edges of one kind between contacts.
fn runs(edges: &[(Edge, Kind)]) -> impl Iterator<Item = &[(Edge, Kind)]> {
    let goes_on = |a: &(Edge, Kind), b: &(Edge, Kind)| a.1 == b.1 && a.0[2..] == b.0[..2];
    edges
        .chunk_by(goes_on)
        .filter(|run| matches!(run[0].1, Kind::JoinArc | Kind::CapArc))
}

/// The arc that a run is: the one with its ends, where no other begins or ends
/// at either, as a full circle does due east of its centre, so that none can
/// have gone on into it.
fn arc_of<'a>(run: &[(Edge, Kind)], arcs: &'a [Arc]) -> Option<&'a Arc> {
    let (first, last) = (run[0].0, run[run.len() - 1].0);
    let ends = [point(first[0], first[1]), point(last[2], last[3])];
    let of = |arc: &Arc| [arc.centre + arc.start, arc.centre + arc.end];
    let east = |arc: &Arc| arc.centre + Point::new(radius(arc) as i64, 0);
    let mut near = arcs
        .iter()
        .filter(|arc| of(arc).iter().any(|end| ends.contains(end)) || ends.contains(&east(arc)));
    near.next()
        .filter(|arc| of(arc) == ends && near.next().is_none())
}

/// How far out the points inside an arc lie.
fn radius(arc: &Arc) -> u64 {
    integer_root(arc.start.squared())
}

/// The points between a run's edges.
fn inside(run: &[(Edge, Kind)]) -> impl Iterator<Item = Point> + '_ {
    run[1..].iter().map(|(edge, _)| point(edge[0], edge[1]))
}

fn lies_out(arc: &Arc, place: Point) -> bool {
    let away = ((place - arc.centre).squared() as f64).sqrt();
    radius(arc) > FARTHEST || (away - radius(arc) as f64).abs() <= ROUNDING
}

fn point(x: i32, y: i32) -> Point {
    Point::new(x.into(), y.into())
}

#[cfg(test)]
mod tests {
    use super::*;
    use crate::labels::labelled;

    /// Plain's own edges, with every second point inside an arc moved out.
    fn moved_out(edges: &[(Edge, Kind)], by: i32) -> Vec<(Edge, Kind)> {
        let mut edges = edges.to_vec();
        for place in 1..edges.len() {
            let ([before, kind], next) = ([edges[place - 1].1, edges[place].1], edges[place].0);
            if before == kind && kind.is_arc() && edges[place - 1].0[2..] == next[..2] {
                edges[place].0[1] += by * next[1].signum();
                edges[place - 1].0[3] = edges[place].0[1];
            }
        }
        edges
    }

    #[test]
    fn plain_draws_them_as_far_out() {
        for path in [
            &[[0, 0, 2], [0, -3, 0]][..],
            &[[0, 0, 2], [10, 10, 2], [20, 20, 2]],
            &[[0, 0, 50], [200, 10, 40], [150, 300, 90]],
        ] {
            for grade in 1..=8 {
                let labelled = labelled(path, grade);
                assert!(as_far_out(&labelled.edges, &labelled));
            }
        }
    }

    #[test]
    fn points_farther_out_are_noticed() {
        let labelled = labelled(&[[0, 0, 50], [200, 10, 40]], 3);
        assert!(!as_far_out(&moved_out(&labelled.edges, 3), &labelled));
    }
}
