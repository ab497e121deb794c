//! Plain's edges with the kinds that the crate's debug list has for them.
//!
//! Plain does not say which of its edges are arc edges. So its walk is written
//! once more here, over its own contacts, arcs and rules, with a kind for each
//! edge; and [`labelled`] stops the program unless the edges are, one by one,
//! those of plain's own walk.

use plain::arcs::{arc, circle, edge, sweep, Edge, Sweep};
use plain::chains::{caps_of_a_break, covered, walk, Cap, Chain};
use plain::contacts::{kind, Section, Trend, Vertex};
use plain::numbers::{step_of_grade, Point};

/// Why an edge is there: the kinds of `variable_stroke_debug`.
#[derive(Clone, Copy, Debug, PartialEq, Eq)]
pub enum Kind {
    SectionBoundary,
    JoinArc,
    JoinClosure,
    CapArc,
    CapClosure,
    CircleArc,
}

impl Kind {
    /// Whether the edge belongs to an arc.
    pub fn is_arc(self) -> bool {
        matches!(self, Kind::JoinArc | Kind::CapArc | Kind::CircleArc)
    }
}

/// An arc between two contacts, by its centre and its rays from there.
#[derive(Clone, Copy, Debug, PartialEq, Eq)]
pub struct Arc {
    pub centre: Point,
    pub start: Point,
    pub end: Point,
    pub sweep: Sweep,
}

impl Arc {
    /// Against the Rust: "a Major arc whose rays have dot > 0 and
    /// |cross|·2^20 ≤ dot, unless its ends are equal".
    pub fn set_aside(&self) -> bool {
        let (cross, dot) = (self.start.cross(self.end), self.start.dot(self.end));
        self.sweep == Sweep::Major
            && self.start != self.end
            && dot > 0
            && (cross.unsigned_abs() as u128) << 20 <= dot as u128
    }
}

/// The edges of a path in order, each with its kind, and the arcs among them.
#[derive(Clone, Debug, Default, PartialEq, Eq)]
pub struct Labelled {
    pub edges: Vec<(Edge, Kind)>,
    pub arcs: Vec<Arc>,
}

impl Labelled {
    /// Against the Rust: whether document 01 sets the path aside.
    pub fn set_aside(&self) -> bool {
        self.arcs.iter().any(Arc::set_aside)
    }
}

/// A path of x, y and radius as plain's vertices.
pub fn vertices(path: &[[i32; 3]]) -> Vec<Vertex> {
    let vertex = |&[x, y, radius]: &[i32; 3]| Vertex::new(x.into(), y.into(), radius.into());
    path.iter().map(vertex).collect()
}

/// Plain's edges of a path with their kinds.
pub fn labelled(path: &[[i32; 3]], grade: u32) -> Labelled {
    let path = vertices(path);
    let mut labeller = Labeller {
        step: step_of_grade(grade),
        labelled: Labelled::default(),
    };
    labeller.walk(&path);
    let labelled = labeller.labelled;
    let drawing = walk(&path, grade);
    assert!(
        labelled
            .edges
            .iter()
            .map(|(edge, _)| edge)
            .eq(&drawing.edges),
        "the labelled walk of {path:?} at grade {grade} is not plain's"
    );
    labelled
}

struct Labeller {
    step: Point,
    labelled: Labelled,
}

impl Labeller {
    /// Everything that `emit` emits is of one kind.
    fn label(&mut self, kind: Kind, emit: impl FnOnce(&mut Vec<Edge>)) {
        let mut edges = Vec::new();
        emit(&mut edges);
        let labelled = edges.into_iter().map(|edge| (edge, kind));
        self.labelled.edges.extend(labelled);
    }

    fn edge(&mut self, kind: Kind, from: Point, to: Point) {
        self.label(kind, |out| edge(out, from, to));
    }

    fn arc(&mut self, kind: Kind, about: Vertex, from: Point, to: Point, aligned: Sweep) {
        let (centre, step) = (about.centre(), self.step);
        let (start, end) = (from - centre, to - centre);
        let sweep = sweep(start, end, aligned);
        self.labelled.arcs.push(Arc {
            centre,
            start,
            end,
            sweep,
        });
        self.label(kind, |out| arc(out, step, centre, from, to, aligned));
    }

    fn cap(&mut self, cap: Cap, about: Vertex, from: Point, to: Point, aligned: Sweep) {
        match cap {
            Cap::Butt => self.edge(Kind::CapClosure, from, to),
            Cap::Round => self.arc(Kind::CapArc, about, from, to, aligned),
        }
    }

    fn start_cap(&mut self, section: &Section, cap: Cap) {
        let aligned = major_if(section.trend == Trend::Decreasing);
        self.cap(cap, section.a, section.a_left, section.a_right, aligned);
    }

    fn end_cap(&mut self, section: &Section, cap: Cap) {
        let aligned = major_if(section.trend == Trend::Increasing);
        self.cap(cap, section.b, section.b_right, section.b_left, aligned);
    }

    fn join(&mut self, prev: &Section, next: &Section) {
        let centre = prev.b.centre();
        if centre != next.a.centre() {
            self.end_cap(prev, Cap::Butt);
            self.start_cap(next, Cap::Butt);
            return;
        }
        let left = (next.b_left - next.a_left).cross(prev.b_left - prev.a_left);
        let right = (prev.b_right - prev.a_right).cross(next.b_right - next.a_right);
        let bend = (centre - prev.a.centre()).cross(next.b.centre() - centre);
        let (from, to) = (next.a_left, prev.b_left);
        if left > 0 || bend < 0 {
            self.arc(Kind::JoinArc, prev.b, from, to, Sweep::Minor);
        } else {
            self.edge(Kind::JoinClosure, from, to);
        }
        let (from, to) = (prev.b_right, next.a_right);
        if right > 0 || bend >= 0 {
            self.arc(Kind::JoinArc, prev.b, from, to, Sweep::Major);
        } else {
            self.edge(Kind::JoinClosure, from, to);
        }
    }

    fn draw(&mut self, chain: &mut Chain, section: Section) {
        self.edge(Kind::SectionBoundary, section.b_left, section.a_left);
        self.edge(Kind::SectionBoundary, section.a_right, section.b_right);
        match &chain.last {
            Some(last) => self.join(last, &section),
            None => self.start_cap(&section, chain.cap),
        }
        chain.last = Some(section);
    }

    fn finish(&mut self, chain: &Chain, cap: Cap) {
        if let Some(last) = &chain.last {
            self.end_cap(last, cap);
        } else if !chain.marked && (chain.cap, cap) != (Cap::Butt, Cap::Butt) {
            let (step, start) = (self.step, chain.start);
            self.label(Kind::CircleArc, |out| {
                circle(out, step, start.centre(), start.radius)
            });
        }
    }

    fn walk(&mut self, path: &[Vertex]) {
        use plain::contacts::Kind as Step;
        let Some(&first) = path.first() else {
            return;
        };
        let mut chain = Chain::start(first, Cap::Round);
        let mut previous = None;
        let mut closing = Cap::Round;
        for (&a, &b) in path.iter().zip(&path[1..]) {
            let step = kind(a, b);
            let drawn = (step == Step::Drawn).then(|| Section::new(a, b));
            closing = Cap::Round;
            if step == Step::Broken {
                let (end, start) = caps_of_a_break(a, b);
                self.finish(&chain, end);
                chain = Chain::start(b, start);
            } else {
                if covered(previous.as_ref(), b) {
                    self.finish(&chain, Cap::Round);
                    chain = Chain::start(a, Cap::Butt);
                    closing = Cap::Butt;
                }
                chain.marked = true;
                if let Some(section) = drawn {
                    self.draw(&mut chain, section);
                }
            }
            previous = drawn;
        }
        self.finish(&chain, closing);
    }
}

fn major_if(major: bool) -> Sweep {
    if major {
        Sweep::Major
    } else {
        Sweep::Minor
    }
}
