//! A picture of a sheet, of what changed between two, or of a tile, as SVG. All places are
//! whole hundredths of the page's unit, so that the same sheets give the same
//! picture on every machine.

mod bounds;
mod discs;
mod frame;
mod labels;
mod layout;
mod lines;
mod panel;
mod pen;
mod reasons;
mod region;
mod shortcut;
mod tile;
mod title;
mod view;

use crate::changes::Changes;
use crate::sheet::Sheet;
use region::Loops;
use sehmelir::Reason;

pub use layout::{of_one, of_reasons, of_two};
pub use tile::of_tile;

/// What a picture shows: one sheet as `before` and `after` with nothing marked,
/// or two.
#[derive(Clone, Copy)]
struct Shown<'a> {
    before: &'a Sheet,
    after: &'a Sheet,
    changes: &'a Changes,
    /// What `after` encloses, if its edges chain.
    region: Option<&'a Loops>,
    /// Why each edge of `after` is there, if that is shown.
    reasons: Option<&'a [Reason]>,
}

impl Shown<'_> {
    /// Whether a body holds other edges.
    fn any_changed(&self) -> bool {
        self.changes.bodies.contains(&true)
    }
}
