//! In the place of a file that is not at hand.

use super::{ArcDirection, ArcMath, ArcOptions};

/// UNREACHED: arcs of the float mathematics.
pub(crate) struct FloatArc;

impl<D> ArcMath<D> for FloatArc {
    fn new(_options: ArcOptions) -> Self {
        unreachable!("float mathematics")
    }

    fn build(&mut self, _from: D, _to: D, _direction: ArcDirection) -> &[D] {
        unreachable!("float mathematics")
    }
}
