//! A panel of the page: a sheet's radii, its way, its edges, dots and numbers,
//! and in a second colour the bodies that changed.

use super::discs::{discs, dots};
use super::frame::{Frame, Point};
use super::labels::{every, labels};
use super::lines::{bodies, way};
use super::pen::decimal;
use super::reasons;
use super::view::{Panel, View};
use super::Shown;

/// Where only every so many-th number has room, lines are thin.
const FINE: usize = 5;

/// All that a panel shows, left open for more, and how many lines its edges
/// have. What lies outside the panel is cut off.
pub fn begin(panel: Panel, view: View, shown: Shown, tolerance: i64) -> (String, usize) {
    let every = every(view, shown.after);
    let class = if every >= FINE { " class=\"fine\"" } else { "" };
    let (edges, lines) = edges(view, shown, tolerance);
    let text = format!(
        "<svg{}{class}>\n<g class=\"radii\">\n{}</g>\n<path class=\"way\" d=\"{}\"/>\n\
         {edges}<path class=\"dots\" d=\"{}\"/>\n<g class=\"numbers\">\n{}</g>\n",
        place(panel),
        discs(view, shown.after),
        way(view, shown.after),
        dots(view, shown.after),
        labels(view, shown.after, &shown.changes.vertices, every),
    );
    (text, lines)
}

/// The boundary, filled where it closes, in one colour or by its reasons; and
/// over it the edges of the bodies that changed, as they were and as they are.
fn edges(view: View, shown: Shown, tolerance: i64) -> (String, usize) {
    let marked = |sheet, wanted| bodies(view, tolerance, sheet, &shown.changes.bodies, wanted);
    let mut paths = match (shown.reasons, shown.region) {
        (Some(told), _) => reasons::paths(view, shown, told, tolerance),
        (None, Some(region)) => vec![("edge region", region.drawn(view, tolerance))],
        (None, None) => vec![("edge", marked(shown.after, false))],
    };
    if shown.any_changed() {
        paths.push(("was", marked(shown.before, true)));
        paths.push(("now", marked(shown.after, true)));
    }
    let (mut text, mut count) = (String::new(), 0);
    for (class, (data, lines)) in paths {
        text += &format!("<path class=\"{class}\" d=\"{data}\"/>\n");
        count += lines;
    }
    (text, count)
}

/// A mark about a frame of the sheet.
pub fn mark(view: View, frame: Frame) -> String {
    let corner = view.spot(Point {
        x: frame.left,
        y: frame.high,
    });
    let [width, height] = [frame.width(), frame.height()].map(|side| view.hundredths(side));
    let [x, y, width, height] = [corner.x, corner.y, width, height].map(decimal);
    format!("<rect class=\"mark\" x=\"{x}\" y=\"{y}\" width=\"{width}\" height=\"{height}\"/>\n")
}

/// A border about a panel.
pub fn border(panel: Panel) -> String {
    format!("<rect class=\"mark\"{}/>\n", place(panel))
}

/// A panel's place on the page, as attributes.
pub fn place(panel: Panel) -> String {
    let Panel { x, y, wide, tall } = panel;
    format!(" x=\"{x}\" y=\"{y}\" width=\"{wide}\" height=\"{tall}\"")
}
