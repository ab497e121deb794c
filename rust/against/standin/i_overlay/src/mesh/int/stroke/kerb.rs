//! OWN: the stroke of one width as the crate's own callers would use it.

use super::builder::StrokeBuilder;
use crate::mesh::int::style::IntStrokeStyle;
use crate::segm::{boolean::ShapeCountBoolean, segment::Segment};
use i_float::int::point::IntPoint;

/// OWN.
pub struct Kerb {
    builder: StrokeBuilder<i32>,
    segments: Vec<Segment<ShapeCountBoolean, i32>>,
}

impl Kerb {
    /// OWN.
    pub fn new(style: &IntStrokeStyle<i32>) -> Kerb {
        Kerb {
            builder: StrokeBuilder::new(style),
            segments: Vec::new(),
        }
    }

    /// OWN: the edges that the builder hands to the overlay engine, in order,
    /// each from its start to its end.
    pub fn edges(&mut self, points: &[[i32; 2]], closed: bool) -> Vec<[i32; 4]> {
        self.segments.clear();
        let points = points.iter().map(|&[x, y]| IntPoint::new(x, y));
        self.builder.build(points, closed, &mut self.segments);
        let edge = |segment: &Segment<ShapeCountBoolean, i32>| {
            let (a, b) = (segment.x_segment.a, segment.x_segment.b);
            match segment.count.subj {
                1 => [a.x, a.y, b.x, b.y],
                _ => [b.x, b.y, a.x, a.y],
            }
        };
        self.segments.iter().map(edge).collect()
    }
}
