//! OWN: the builder as the crate's own callers would use it, with the debug
//! list beside its segments.

use super::builder::VariableStrokeBuilder;
use super::debug::IntVariableStrokeDebugEdge;
use super::style::{IntStrokeVertex, IntVariableStrokeStyle};
use crate::segm::{boolean::ShapeCountBoolean, segment::Segment};
use i_float::int::point::IntPoint;

/// OWN.
pub struct Stroke {
    builder: VariableStrokeBuilder<i32>,
    segments: Vec<Segment<ShapeCountBoolean, i32>>,
    edges: Vec<IntVariableStrokeDebugEdge<i32>>,
}

impl Stroke {
    /// OWN.
    pub fn new(style: IntVariableStrokeStyle) -> Stroke {
        Stroke {
            builder: VariableStrokeBuilder::new(style),
            segments: Vec::new(),
            edges: Vec::new(),
        }
    }

    /// OWN: the debug list of a path of x, y and width. The program stops if
    /// the list is not, edge for edge, what the builder hands to the overlay
    /// engine.
    pub fn edges(&mut self, path: &[[i32; 3]]) -> &[IntVariableStrokeDebugEdge<i32>] {
        self.segments.clear();
        self.edges.clear();
        let vertices = path
            .iter()
            .map(|&[x, y, width]| IntStrokeVertex::new(IntPoint::new(x, y), width));
        self.builder
            .build(vertices, &mut self.segments, Some(&mut self.edges), 0);
        assert_eq!(self.segments.len(), self.edges.len());
        for (segment, edge) in self.segments.iter().zip(&self.edges) {
            let (a, b) = (segment.x_segment.a, segment.x_segment.b);
            let ends = if segment.count.subj == 1 {
                (a, b)
            } else {
                (b, a)
            };
            assert_eq!(ends, (edge.a, edge.b));
        }
        &self.edges
    }
}
