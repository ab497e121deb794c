/// How the corners of a kerb are drawn.
#[derive(Clone, Copy, Debug, PartialEq, Eq)]
pub enum Join {
    /// 0: cut straight.
    Bevel,
    /// 1: along an arc.
    Round,
}

impl Join {
    /// The word of a join.
    pub(crate) fn word(self) -> u32 {
        match self {
            Join::Bevel => 0,
            Join::Round => 1,
        }
    }
}

/// What a kerb has beside its points: one radius for the whole line, its
/// corners, and whether it goes back to its first point.
#[derive(Clone, Copy, Debug, PartialEq, Eq)]
pub struct Style {
    /// From 0 to 268,435,456.
    pub radius: u32,
    /// How corners are drawn.
    pub join: Join,
    /// Whether the line goes back to its first point. An open one has flat ends.
    pub closed: bool,
}

/// What an outline is of.
#[derive(Clone, Copy, Debug, PartialEq, Eq)]
pub enum Form {
    /// Kind 0: a path, with a radius at each vertex.
    Stroke,
    /// Kind 1: a kerb, of one width.
    Kerb(Style),
}

impl Form {
    /// How many numbers a vertex has: x, y and radius, or x and y.
    ///
    /// ```
    /// assert_eq!(sehmelir::Form::Stroke.numbers(), 3);
    /// ```
    pub fn numbers(self) -> usize {
        match self {
            Form::Stroke => 3,
            Form::Kerb(_) => 2,
        }
    }
}

/// What [`read`](crate::read) tells of an outline, beside its vertices.
#[derive(Clone, Copy, Debug, PartialEq, Eq)]
pub struct Kept {
    /// How many vertices it has.
    pub vertices: usize,
    /// How finely its arcs are drawn.
    pub grade: u32,
    /// What it is of.
    pub form: Form,
}
