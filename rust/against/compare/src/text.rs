//! The crate's own text, run.

use against::labels::Kind;
use i_overlay::i_float::int::angle::Angle;
use i_overlay::mesh::int::arc::ArcOptions;
use i_overlay::mesh::int::variable_stroke::{
    IntVariableStrokeStyle, Stroke, VariableStrokeDebugEdgeKind,
};
use plain::arcs::Edge;

/// The builder, at some step angles. Where points lie on an arc is not compared, so
/// any of them must do.
pub struct Text {
    strokes: [Stroke; Text::STEPS],
}

impl Text {
    /// How many step angles there are.
    pub const STEPS: usize = 4;

    /// Which of them is the crate's own default.
    pub const DEFAULT: usize = 1;

    pub fn new() -> Text {
        let default = IntVariableStrokeStyle::default();
        let steps = [
            ArcOptions::MAX_STEP,
            default.arc.max_step,
            Angle::from_bits(1 << 25),
            ArcOptions::MIN_STEP,
        ];
        let stroke = |max_step| {
            Stroke::new(default.arc(ArcOptions {
                max_step,
                ..default.arc
            }))
        };
        Text {
            strokes: steps.map(stroke),
        }
    }

    /// The debug list of a path of x, y and radius. A width is twice the
    /// radius, or one less: both mean that radius, and -1 means radius 0.
    pub fn edges(&mut self, path: &[[i32; 3]], step: usize, odd: bool) -> Vec<(Edge, Kind)> {
        let width = |&[x, y, radius]: &[i32; 3]| [x, y, 2 * radius - odd as i32];
        let path: Vec<[i32; 3]> = path.iter().map(width).collect();
        let edges = self.strokes[step].edges(&path).iter();
        edges
            .map(|edge| ([edge.a.x, edge.a.y, edge.b.x, edge.b.y], kind(edge.kind)))
            .collect()
    }
}

fn kind(kind: VariableStrokeDebugEdgeKind) -> Kind {
    use VariableStrokeDebugEdgeKind as Debug;
    match kind {
        Debug::SectionBoundary => Kind::SectionBoundary,
        Debug::JoinArc => Kind::JoinArc,
        Debug::JoinClosure => Kind::JoinClosure,
        Debug::CapArc => Kind::CapArc,
        Debug::CapClosure => Kind::CapClosure,
        Debug::CircleArc => Kind::CircleArc,
    }
}
