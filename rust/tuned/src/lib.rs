//! The edges of the variable-width stroke, written to be fast: document 01's
//! for paths that draw accepts, with request 6 of document 02. One pass into
//! room that is long enough, whole numbers alone, and nothing is refused.
//!
//! The rules are `rust/plain`'s, and its tests hold it to them edge by edge.
//! This is only for measuring against.

mod arcs;
mod numbers;
mod sections;

use arcs::{Pen, Sweep};
use numbers::STEPS;
use sections::{Section, Vertex};

/// Draws a path, three numbers a vertex, into room for all its edges, four
/// numbers an edge; and how many they are.
pub fn draw(path: &[i32], grade: u32, room: &mut [i32]) -> usize {
    let (vertices, _) = path.as_chunks::<3>();
    let (room, _) = room.as_chunks_mut::<4>();
    let mut pen = Pen {
        room,
        edges: 0,
        step: STEPS[grade as usize - 1],
    };
    if let Some((&first, rest)) = vertices.split_first() {
        walk(&mut pen, Vertex::new(first), rest);
    }
    pen.edges
}

/// A cap is Butt or Round.
#[derive(Clone, Copy, PartialEq)]
enum Cap {
    Butt,
    Round,
}

/// Its start, its start cap, the last drawn section and whether a step was made.
struct Chain {
    start: Vertex,
    cap: Cap,
    last: Option<Section>,
    marked: bool,
}

impl Chain {
    #[inline(always)]
    fn new(start: Vertex, cap: Cap) -> Chain {
        Chain {
            start,
            cap,
            last: None,
            marked: false,
        }
    }

    /// The end cap, or the circle of a chain that has only its start.
    #[inline(always)]
    fn finish(&self, pen: &mut Pen, cap: Cap) {
        if let Some(last) = &self.last {
            end_cap(pen, last, cap);
        } else if !self.marked && (self.cap, cap) != (Cap::Butt, Cap::Butt) {
            pen.circle(self.start.centre, self.start.radius);
        }
    }
}

/// Chains: all steps of a path.
fn walk(pen: &mut Pen, first: Vertex, rest: &[[i32; 3]]) {
    let mut chain = Chain::new(first, Cap::Round);
    let (mut a, mut closing, mut drawn) = (first, Cap::Round, false);
    for &numbers in rest {
        let b = Vertex::new(numbers);
        let delta = a.radius - b.radius;
        let squared = (b.centre - a.centre).squared();
        closing = Cap::Round;
        if (delta * delta) as u64 >= squared {
            let (end, start) = match delta >= 0 {
                true => (Cap::Round, Cap::Butt),
                false => (Cap::Butt, Cap::Round),
            };
            chain.finish(pen, end);
            chain = Chain::new(b, start);
            drawn = false;
        } else {
            let covers = |last: &Section| {
                drawn && last.a.radius.max(last.b.radius) > b.radius && last.covers(b)
            };
            if chain.last.as_ref().is_some_and(covers) {
                chain.finish(pen, Cap::Round);
                chain = Chain::new(a, Cap::Butt);
                closing = Cap::Butt;
            }
            chain.marked = true;
            drawn = a.radius.max(b.radius) >= 2;
            if drawn {
                let section = Section::new(a, b, squared);
                pen.edge(section.b_left, section.a_left);
                pen.edge(section.a_right, section.b_right);
                match &chain.last {
                    Some(last) => join(pen, last, &section),
                    None => start_cap(pen, &section, chain.cap),
                }
                chain.last = Some(section);
            }
        }
        a = b;
    }
    chain.finish(pen, closing);
}

fn start_cap(pen: &mut Pen, section: &Section, cap: Cap) {
    let (from, to) = (section.a_left, section.a_right);
    let aligned = match section.a.radius > section.b.radius {
        true => Sweep::Major,
        false => Sweep::Minor,
    };
    match cap {
        Cap::Butt => pen.edge(from, to),
        Cap::Round => pen.arc(section.a.centre, from, to, aligned),
    }
}

fn end_cap(pen: &mut Pen, section: &Section, cap: Cap) {
    let (from, to) = (section.b_right, section.b_left);
    let aligned = match section.a.radius < section.b.radius {
        true => Sweep::Major,
        false => Sweep::Minor,
    };
    match cap {
        Cap::Butt => pen.edge(from, to),
        Cap::Round => pen.arc(section.b.centre, from, to, aligned),
    }
}

/// Left first: an arc outside the bend, an edge inside it.
#[inline(always)]
fn join(pen: &mut Pen, last: &Section, next: &Section) {
    let centre = last.b.centre;
    if centre != next.a.centre {
        end_cap(pen, last, Cap::Butt);
        start_cap(pen, next, Cap::Butt);
        return;
    }
    let last_left = last.b_left - last.a_left;
    let last_right = last.b_right - last.a_right;
    let next_left = next.b_left - next.a_left;
    let next_right = next.b_right - next.a_right;
    let bend = (centre - last.a.centre).cross(next.b.centre - centre);
    if bend < 0 || next_left.cross(last_left) > 0 {
        pen.arc(centre, next.a_left, last.b_left, Sweep::Minor);
    } else {
        pen.edge(next.a_left, last.b_left);
    }
    if bend >= 0 || last_right.cross(next_right) > 0 {
        pen.arc(centre, last.b_right, next.a_right, Sweep::Major);
    } else {
        pen.edge(last.b_right, next.a_right);
    }
}
