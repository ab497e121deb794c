//! Document 01, "Chains".

use crate::arcs::{arc, circle, edge, Edge, Sweep};
use crate::contacts::{kind, Kind, Section, Trend, Vertex};
use crate::numbers::{step_of_grade, Point};
use crate::reasons::Reason;

/// Chains: a cap "is Butt or Round".
#[derive(Clone, Copy, Debug, PartialEq, Eq)]
pub enum Cap {
    Butt,
    Round,
}

/// What takes down a path's drawing: edges, arcs and circles, in the order in
/// which the rules emit them.
pub trait Pen {
    fn edge(&mut self, from: Point, to: Point);

    fn arc(&mut self, step: Point, centre: Point, from: Point, to: Point, aligned: Sweep);

    fn circle(&mut self, step: Point, centre: Point, radius: i64);

    /// Document 02, request 1: the rule that emits what comes next.
    fn rule(&mut self, _reason: Reason) {}

    /// Document 02, request 7: a side of a section, which is drawn as every
    /// edge is, with whether its start and its end are exact.
    fn side(&mut self, from: Point, to: Point, _exact: [bool; 2]) {
        self.edge(from, to);
    }

    /// The arc of a join, which is drawn as every arc is.
    fn join_arc(&mut self, step: Point, centre: Point, from: Point, to: Point, aligned: Sweep) {
        self.arc(step, centre, from, to, aligned);
    }
}

impl Pen for Vec<Edge> {
    fn edge(&mut self, from: Point, to: Point) {
        edge(self, from, to);
    }

    fn arc(&mut self, step: Point, centre: Point, from: Point, to: Point, aligned: Sweep) {
        arc(self, step, centre, from, to, aligned);
    }

    fn circle(&mut self, step: Point, centre: Point, radius: i64) {
        circle(self, step, centre, radius);
    }
}

/// Chains, start cap: "Butt is a_left to a_right; Round is an arc that way,
/// Major if aligned and decreasing, else Minor."
pub fn start_cap(out: &mut impl Pen, step: Point, section: &Section, cap: Cap) {
    let (from, to) = (section.a_left, section.a_right);
    let aligned = if section.trend == Trend::Decreasing {
        Sweep::Major
    } else {
        Sweep::Minor
    };
    match cap {
        Cap::Butt => out.edge(from, to),
        Cap::Round => out.arc(step, section.a.centre(), from, to, aligned),
    }
}

/// Chains, end cap: "b_right to b_left, Major if aligned and increasing."
pub fn end_cap(out: &mut impl Pen, step: Point, section: &Section, cap: Cap) {
    let (from, to) = (section.b_right, section.b_left);
    let aligned = if section.trend == Trend::Increasing {
        Sweep::Major
    } else {
        Sweep::Minor
    };
    match cap {
        Cap::Butt => out.edge(from, to),
        Cap::Round => out.arc(step, section.b.centre(), from, to, aligned),
    }
}

/// Chains, join: "if the two centres differ, end cap Butt and start cap Butt.
/// Else, with left and right vectors from a-contact to b-contact, left first:
/// next.a_left to prev.b_left, an arc (Minor if aligned) when next left × prev
/// left > 0 or prev × next centre line < 0, else an edge. Then prev.b_right to
/// next.a_right, an arc (Major if aligned) when prev right × next right > 0 or
/// prev × next centre line ≥ 0, else an edge."
pub fn join(out: &mut impl Pen, step: Point, prev: &Section, next: &Section) {
    let centre = prev.b.centre();
    if centre != next.a.centre() {
        out.rule(Reason::Gap);
        end_cap(out, step, prev, Cap::Butt);
        start_cap(out, step, next, Cap::Butt);
        return;
    }
    let prev_left = prev.b_left - prev.a_left;
    let prev_right = prev.b_right - prev.a_right;
    let next_left = next.b_left - next.a_left;
    let next_right = next.b_right - next.a_right;
    let bend = (centre - prev.a.centre()).cross(next.b.centre() - centre);

    out.rule(Reason::LeftJoin);
    let (from, to) = (next.a_left, prev.b_left);
    if next_left.cross(prev_left) > 0 || bend < 0 {
        out.join_arc(step, centre, from, to, Sweep::Minor);
    } else {
        out.edge(from, to);
    }
    out.rule(Reason::RightJoin);
    let (from, to) = (prev.b_right, next.a_right);
    if prev_right.cross(next_right) > 0 || bend >= 0 {
        out.join_arc(step, centre, from, to, Sweep::Major);
    } else {
        out.edge(from, to);
    }
}

/// Chains: "A chain holds its start vertex, a start cap that is Butt or Round,
/// the last drawn section if there is one, and a mark that a step was made."
#[derive(Clone, Copy, Debug, PartialEq, Eq)]
pub struct Chain {
    pub start: Vertex,
    pub cap: Cap,
    pub last: Option<Section>,
    pub marked: bool,
}

impl Chain {
    /// A chain that has only its start.
    pub fn start(start: Vertex, cap: Cap) -> Chain {
        Chain {
            start,
            cap,
            last: None,
            marked: false,
        }
    }

    /// Chains: "edges b_left to a_left, a_right to b_right; then a join to the
    /// chain's last section, or the start cap."
    pub fn draw(&mut self, out: &mut impl Pen, step: Point, section: Section) {
        out.rule(Reason::LeftSide);
        let exact = [section.b_left_exact, section.a_left_exact];
        out.side(section.b_left, section.a_left, exact);
        out.rule(Reason::RightSide);
        let exact = [section.a_right_exact, section.b_right_exact];
        out.side(section.a_right, section.b_right, exact);
        match &self.last {
            Some(last) => join(out, step, last, &section),
            None => {
                out.rule(Reason::StartCap);
                start_cap(out, step, &section, self.cap);
            }
        }
        self.last = Some(section);
    }

    /// Chains, finish: "the end cap if there is a last section; otherwise a
    /// circle at the start vertex if no step was marked and not both caps are
    /// Butt."
    pub fn finish(&self, out: &mut impl Pen, step: Point, cap: Cap) {
        if let Some(last) = &self.last {
            out.rule(Reason::EndCap);
            end_cap(out, step, last, cap);
        } else if !self.marked && (self.cap, cap) != (Cap::Butt, Cap::Butt) {
            out.rule(Reason::Circle);
            out.circle(step, self.start.centre(), self.start.radius);
        }
    }
}

/// Chains, broken: "If ra ≥ rb, finish Round and start Butt; else finish Butt
/// and start Round."
pub fn caps_of_a_break(a: Vertex, b: Vertex) -> (Cap, Cap) {
    if a.radius >= b.radius {
        (Cap::Round, Cap::Butt)
    } else {
        (Cap::Butt, Cap::Round)
    }
}

/// Chains, not broken: "the larger radius of the previous step exceeds rb, and
/// the previous step was drawn and its quadrilateral covers b's circle".
/// `previous` is the previous step's section if that step was drawn.
pub fn covered(previous: Option<&Section>, b: Vertex) -> bool {
    previous.is_some_and(|section| section.larger_radius() > b.radius && section.covers_circle(b))
}

/// All edges of a path in order, and how many of them each body has: one count
/// for each vertex, the edges emitted on reaching it, and one for the closing
/// body.
#[derive(Clone, Debug, Default, PartialEq, Eq)]
pub struct Drawing {
    pub edges: Vec<Edge>,
    pub counts: Vec<u32>,
}

/// Chains: "The first chain starts Round at the first vertex. For each next
/// vertex b: … At the end, finish with the closing cap." Where a body is whole,
/// `ended` is told.
pub fn trace<P: Pen>(path: &[Vertex], grade: u32, out: &mut P, mut ended: impl FnMut(&P)) {
    let step = step_of_grade(grade);
    if let Some(&first) = path.first() {
        ended(out);
        let mut chain = Chain::start(first, Cap::Round);
        let mut previous = None;
        let mut closing = Cap::Round;
        for (&a, &b) in path.iter().zip(&path[1..]) {
            let kind = kind(a, b);
            let mut drawn = None;
            closing = Cap::Round;
            if kind == Kind::Broken {
                let (end, start) = caps_of_a_break(a, b);
                chain.finish(out, step, end);
                chain = Chain::start(b, start);
            } else {
                if covered(previous.as_ref(), b) {
                    chain.finish(out, step, Cap::Round);
                    chain = Chain::start(a, Cap::Butt);
                    closing = Cap::Butt;
                }
                chain.marked = true;
                if kind == Kind::Drawn {
                    let section = Section::new(a, b);
                    chain.draw(out, step, section);
                    drawn = Some(section);
                }
            }
            previous = drawn;
            ended(out);
        }
        chain.finish(out, step, closing);
    }
    ended(out);
}

/// The edges of a path, and its bodies' counts.
pub fn walk(path: &[Vertex], grade: u32) -> Drawing {
    let mut edges = Vec::new();
    let mut counts = Vec::with_capacity(path.len() + 1);
    let mut counted = 0;
    trace(path, grade, &mut edges, |edges: &Vec<Edge>| {
        counts.push((edges.len() - counted) as u32);
        counted = edges.len();
    });
    Drawing { edges, counts }
}

/// Demand 3: how far replacing vertex `k` shows: "the first point at k + 2 or
/// later that is reached by a step that is drawn or broken", if there is one.
pub fn reach(path: &[Vertex], k: usize) -> Option<usize> {
    let settles = |j: &usize| matches!(kind(path[j - 1], path[*j]), Kind::Drawn | Kind::Broken);
    (k + 2..path.len()).find(settles)
}

/// The bodies of a path: for each vertex the edges emitted on reaching it, and
/// last the closing body.
pub fn bodies(path: &[Vertex], grade: u32) -> Vec<Vec<Edge>> {
    let Drawing { edges, counts } = walk(path, grade);
    let mut rest = edges.as_slice();
    let next = |count: u32| {
        let (body, after) = rest.split_at(count as usize);
        rest = after;
        body.to_vec()
    };
    counts.into_iter().map(next).collect()
}
