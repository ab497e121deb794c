//! Document 02, request 3: "Kerbs of one width".
//!
//! "Follow `stroke/builder.rs` and `stroke/builder_join.rs` with document 01's
//! section edges and equal-radius contacts; both caps are Butt."

use crate::arcs::{edge, interior, Edge};
use crate::contacts::{Section, Vertex, LIMIT};
use crate::numbers::{direction, scale, step_of_grade, Point};

/// "join (0 bevel, 1 round)".
#[derive(Clone, Copy, Debug, PartialEq, Eq)]
pub enum Join {
    Bevel,
    Round,
}

/// "Kerbs have one radius for the whole line and bevelled or round corners":
/// what stands beside the points of a kerb.
#[derive(Clone, Copy, Debug, PartialEq, Eq)]
pub struct Style {
    pub radius: i64,
    pub join: Join,
    pub closed: bool,
}

/// "The header gains three words after the edge count: radius, join (0 bevel, 1
/// round), closed (0 or 1)."
pub type StyleWords = [u32; 3];

/// The header's place of the first of the three.
const STYLE_PLACE: usize = 5;

impl Style {
    /// The style of three words, or "the first of radius, join and closed
    /// outside its range … with its header place 5, 6 or 7".
    pub fn of([radius, join, closed]: StyleWords) -> Result<Style, usize> {
        let within = [radius as i64 <= LIMIT, join <= 1, closed <= 1];
        match within.iter().position(|&within| !within) {
            Some(place) => Err(STYLE_PLACE + place),
            None => Ok(Style {
                radius: radius as i64,
                join: if join == 0 { Join::Bevel } else { Join::Round },
                closed: closed == 1,
            }),
        }
    }

    /// The three words of a style.
    pub fn words(self) -> StyleWords {
        let join = match self.join {
            Join::Bevel => 0,
            Join::Round => 1,
        };
        [self.radius as u32, join, self.closed as u32]
    }
}

/// `builder.rs`: a section from each point to the next that differs from it
/// and, in a closed kerb, one from the last back to the first where they
/// differ. A radius of 1 or less has none.
pub fn sections(points: &[Point], style: Style) -> Vec<Section> {
    if style.radius <= 1 {
        return vec![];
    }
    let mut line = points.to_vec();
    if style.closed {
        line.extend(points.first());
    }
    line.dedup();
    let vertex = |point: Point| Vertex::new(point.x, point.y, style.radius);
    line.windows(2)
        .map(|ends| Section::new(vertex(ends[0]), vertex(ends[1])))
        .collect()
}

/// "A round join is its arc without the Minor and Major test, each direction
/// scaled by the stroke's radius; where its directions have cross product 0 or
/// less and dot product above 0 it is one edge."
fn round(out: &mut Vec<Edge>, step: Point, centre: Point, radius: i64, from: Point, to: Point) {
    let (start, end) = (direction(from - centre), direction(to - centre));
    let mut reached = from;
    if start.cross(end) > 0 || start.dot(end) <= 0 {
        for current in interior(step, start, end) {
            let next = centre + Point::new(scale(current.x, radius), scale(current.y, radius));
            edge(out, reached, next);
            reached = next;
        }
    }
    edge(out, reached, to);
}

/// `builder_join.rs`: two inner edges through the centre, then the outer side,
/// which is the right one where the line turns left or goes straight on or
/// straight back, else the left one.
pub fn join(out: &mut Vec<Edge>, step: Point, style: Style, a: &Section, b: &Section) {
    let centre = a.b.centre();
    let turn = (centre - a.a.centre()).cross(b.b.centre() - b.a.centre());
    let (from, to) = if turn >= 0 {
        edge(out, b.a_left, centre);
        edge(out, centre, a.b_left);
        (a.b_right, b.a_right)
    } else {
        edge(out, a.b_right, centre);
        edge(out, centre, b.a_right);
        (b.a_left, a.b_left)
    };
    match style.join {
        Join::Bevel => edge(out, from, to),
        Join::Round => round(out, step, centre, style.radius, from, to),
    }
}

/// All edges of a kerb in order, and "the counts of section, join and cap
/// edges; bodies stand in that order".
#[derive(Clone, Debug, Default, PartialEq, Eq)]
pub struct KerbDrawing {
    pub edges: Vec<Edge>,
    pub counts: [u32; 3],
}

/// `builder.rs`: all sections, then all joins, a closed kerb's last one from
/// its last section to its first, then an open kerb's two caps.
pub fn walk(points: &[Point], grade: u32, style: Style) -> KerbDrawing {
    let step = step_of_grade(grade);
    let sections = sections(points, style);
    let mut edges = Vec::new();
    for section in &sections {
        edge(&mut edges, section.b_left, section.a_left);
        edge(&mut edges, section.a_right, section.b_right);
    }
    let sides = edges.len();
    for pair in sections.windows(2) {
        join(&mut edges, step, style, &pair[0], &pair[1]);
    }
    let (first, last) = (sections.first(), sections.last());
    if let (Some(first), Some(last), true) = (first, last, style.closed) {
        join(&mut edges, step, style, last, first);
    }
    let joined = edges.len();
    if let (Some(first), Some(last), false) = (first, last, style.closed) {
        edge(&mut edges, first.a_left, first.a_right);
        edge(&mut edges, last.b_right, last.b_left);
    }
    let counts = [sides, joined - sides, edges.len() - joined].map(|count| count as u32);
    KerbDrawing { edges, counts }
}
