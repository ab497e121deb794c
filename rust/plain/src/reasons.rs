//! Document 02, request 1: "Why is this edge here?"
//!
//! "Names the reason: left or right side of a section, start cap, end cap, left
//! join, right join, closing of a gap, or a circle, with the vertex whose body
//! holds it (n for closing) and its place from 0 under that rule." Request 7:
//! it "prints" the marks of exact contacts "for section edges".

use crate::arcs::{Edge, Sweep};
use crate::calls::{kept_drawing, settle, tested_room, Reply};
use crate::chains::{trace, Pen};
use crate::contacts::Vertex;
use crate::numbers::Point;
use std::fmt::Write;

/// The reasons, "numbered from 0 in the request's order".
#[derive(Clone, Copy, Debug, PartialEq, Eq)]
pub enum Reason {
    LeftSide,
    RightSide,
    StartCap,
    EndCap,
    LeftJoin,
    RightJoin,
    Gap,
    Circle,
}

impl Reason {
    /// The reason "in words joined by hyphens".
    pub fn words(self) -> &'static str {
        match self {
            Reason::LeftSide => "left-side",
            Reason::RightSide => "right-side",
            Reason::StartCap => "start-cap",
            Reason::EndCap => "end-cap",
            Reason::LeftJoin => "left-join",
            Reason::RightJoin => "right-join",
            Reason::Gap => "gap",
            Reason::Circle => "circle",
        }
    }
}

/// Why an edge is there, and of a side whether its start and its end are exact;
/// "marks of edges that are no side: 0".
#[derive(Clone, Copy, Debug, PartialEq, Eq)]
pub struct Why {
    pub reason: Reason,
    pub vertex: usize,
    pub place: usize,
    pub exact: [bool; 2],
}

impl Why {
    /// "A line is `edge reason vertex place`"; "a side's line goes on with
    /// `exact` or `rounded` for its start and for its end, as the edge runs".
    pub fn line(&self, edge: usize) -> String {
        let mut line = format!(
            "{edge} {} {} {}",
            self.reason.words(),
            self.vertex,
            self.place
        );
        if matches!(self.reason, Reason::LeftSide | Reason::RightSide) {
            for exact in self.exact {
                line += if exact { " exact" } else { " rounded" };
            }
        }
        line
    }
}

/// A pen that notes for each edge which rule was at work.
struct Named {
    edges: Vec<Edge>,
    reasons: Vec<(Reason, [bool; 2])>,
    rule: Reason,
    exact: [bool; 2],
}

impl Named {
    /// Whatever was emitted is the rule's.
    fn name(&mut self) {
        self.reasons
            .resize(self.edges.len(), (self.rule, self.exact));
    }
}

impl Pen for Named {
    fn edge(&mut self, from: Point, to: Point) {
        self.edges.edge(from, to);
        self.name();
    }

    fn arc(&mut self, step: Point, centre: Point, from: Point, to: Point, aligned: Sweep) {
        self.edges.arc(step, centre, from, to, aligned);
        self.name();
    }

    fn circle(&mut self, step: Point, centre: Point, radius: i64) {
        self.edges.circle(step, centre, radius);
        self.name();
    }

    fn rule(&mut self, reason: Reason) {
        self.rule = reason;
    }

    fn side(&mut self, from: Point, to: Point, exact: [bool; 2]) {
        self.exact = exact;
        self.edge(from, to);
        self.exact = [false; 2];
    }
}

/// Why each edge of a path is there. "A gap's edges are counted as edges": a
/// place is how many edges of its body its rule emitted before it.
pub fn whys(path: &[Vertex], grade: u32) -> Vec<Why> {
    let mut named = Named {
        edges: Vec::new(),
        reasons: Vec::new(),
        rule: Reason::Circle,
        exact: [false; 2],
    };
    let mut ends = Vec::new();
    trace(path, grade, &mut named, |named: &Named| {
        ends.push(named.edges.len());
    });
    let mut whys = Vec::with_capacity(named.reasons.len());
    let mut start = 0;
    for (vertex, end) in ends.into_iter().enumerate() {
        let mut places = [0; 8];
        for &(reason, exact) in &named.reasons[start..end] {
            let place = &mut places[reason as usize];
            whys.push(Why {
                reason,
                vertex,
                place: *place,
                exact,
            });
            *place += 1;
        }
        start = end;
    }
    whys
}

/// "Takes a kept outline and an edge number and names the reason." Refusals:
/// "those of reading but 5, then 10, no such edge, with the edge number".
pub fn explain(store: &[u8], edge: usize) -> (Reply, Option<Why>) {
    let (path, grade) = match kept_drawing(store) {
        Ok(kept) => kept,
        Err(refusal) => return (refusal, None),
    };
    match whys(&path, grade).get(edge) {
        Some(&why) => (Reply::new(0, edge as u64), Some(why)),
        None => (Reply::new(10, edge as u64), None),
    }
}

/// Why each edge of a store is there, five numbers an edge.
pub fn list(store: &[u8], room: &mut [u64]) -> Reply {
    settle(|| {
        let (path, grade) = kept_drawing(store)?;
        let whys = whys(&path, grade);
        tested_room(whys.len(), 5, room.len())?;
        for (numbers, why) in room.chunks_exact_mut(5).zip(&whys) {
            let [start, end] = why.exact.map(u64::from);
            let named = [why.reason as u64, why.vertex as u64, why.place as u64];
            numbers[..3].copy_from_slice(&named);
            numbers[3..].copy_from_slice(&[start, end]);
        }
        Ok(Reply::new(0, whys.len() as u64))
    })
}

/// "A store of at most 60 KiB."
pub const MOST_BYTES: usize = 60 * 1024;

/// What the small program prints: a line an edge, or one line that says why not.
pub fn printed(store: &[u8]) -> String {
    if store.len() > MOST_BYTES {
        return "refused: the input is longer than 60 KiB\n".to_string();
    }
    let mut text = String::new();
    let (path, grade) = match kept_drawing(store) {
        Ok(kept) => kept,
        Err(Reply { reply, number, .. }) => return format!("refused: {reply} {number}\n"),
    };
    for (edge, why) in whys(&path, grade).iter().enumerate() {
        writeln!(text, "{}", why.line(edge)).expect("a text grows");
    }
    text
}

#[cfg(test)]
mod tests {
    use super::*;
    use crate::outline::{first_edition, second_edition};

    fn path(numbers: &[[i64; 3]]) -> Vec<Vertex> {
        numbers
            .iter()
            .map(|&[x, y, r]| Vertex::new(x, y, r))
            .collect()
    }

    #[test]
    fn a_lone_vertex_is_a_circle() {
        let whys = whys(&path(&[[0, 0, 10]]), 1);
        assert_eq!(whys.len(), 8);
        assert!(whys.iter().enumerate().all(|(place, why)| {
            (why.reason, why.vertex, why.place) == (Reason::Circle, 1, place)
        }));
    }

    #[test]
    fn the_second_cap_of_a_gap_can_be_its_first_edge() {
        let path = path(&[[0, 0, 5], [10, 0, 0], [12, 0, 1], [22, 0, 5]]);
        let gaps: Vec<Why> = whys(&path, 3)
            .into_iter()
            .filter(|why| why.reason == Reason::Gap)
            .collect();
        let gap = |vertex, place| Why {
            reason: Reason::Gap,
            vertex,
            place,
            exact: [false; 2],
        };
        assert_eq!(gaps, [gap(3, 0)]);
    }

    /// The left side runs from b_left to a_left, the right one from a_right to
    /// b_right; the radius 0 at the end is exact.
    #[test]
    fn a_side_tells_its_ends_as_it_runs() {
        let whys = whys(&path(&[[0, 0, 5], [7, 2, 0]]), 1);
        assert_eq!(whys[0].line(0), "0 left-side 1 0 exact rounded");
        assert_eq!(whys[1].line(1), "1 right-side 1 0 rounded exact");
        assert_eq!(whys[2].line(2), "2 start-cap 1 0");
    }

    #[test]
    fn no_other_edge_fits_a_place() {
        let path = path(&[
            [0, 0, 9],
            [40, 3, 12],
            [60, 40, 7],
            [61, 41, 30],
            [0, 80, 4],
        ]);
        let whys = whys(&path, 4);
        assert_eq!(whys.len(), crate::chains::walk(&path, 4).edges.len());
        for (k, why) in whys.iter().enumerate() {
            assert!(whys[..k].iter().all(|earlier| earlier != why));
        }
    }

    #[test]
    fn an_edge_past_the_last_is_10() {
        let path = path(&[[0, 0, 10]]);
        for store in [first_edition(&path, 1), second_edition(&path, &[411], 1)] {
            assert_eq!(explain(&store, 8), (Reply::new(10, 8), None));
            let (reply, why) = explain(&store, 7);
            assert_eq!(
                (reply, why.map(|why| why.place)),
                (Reply::new(0, 7), Some(7))
            );
        }
    }
}
