//! The radii of a sheet as faint discs, and its vertices as dots.

use super::bounds::of_vertex;
use super::frame::{fine, Frame, Point};
use super::pen::decimal;
use super::view::{Spot, View};
use crate::sheet::Sheet;

/// A disc for each radius of which there is something to be seen.
pub fn discs(view: View, sheet: &Sheet) -> String {
    let shown = |vertex: &&[i32; 3]| radius(view, vertex) > 0 && view.shows(of_vertex(vertex));
    let disc = |vertex: &[i32; 3]| {
        let spot = spot_of(view, vertex);
        let [x, y, radius] = [spot.x, spot.y, radius(view, vertex)].map(decimal);
        format!("<circle cx=\"{x}\" cy=\"{y}\" r=\"{radius}\"/>\n")
    };
    sheet.vertices().iter().filter(shown).map(disc).collect()
}

/// A dot for each vertex that is to be seen, as the data of an SVG path: lines
/// of no length, whose round ends show.
pub fn dots(view: View, sheet: &Sheet) -> String {
    let shown = |vertex: &&[i32; 3]| is_seen(view, vertex);
    let dot = |vertex: &[i32; 3]| {
        let spot = spot_of(view, vertex);
        format!("M{} {}h0", decimal(spot.x), decimal(spot.y))
    };
    sheet.vertices().iter().filter(shown).map(dot).collect()
}

/// A vertex's radius, in hundredths.
fn radius(view: View, &[_, _, radius]: &[i32; 3]) -> i64 {
    view.hundredths(fine(radius))
}

/// Where a vertex is shown.
pub fn spot_of(view: View, &[x, y, _]: &[i32; 3]) -> Spot {
    view.spot(Point::of(x, y))
}

/// Whether a vertex is to be seen.
pub fn is_seen(view: View, &[x, y, _]: &[i32; 3]) -> bool {
    view.shows(Frame::about(Point::of(x, y), 0))
}
