//! The lines of a sheet: its bodies' edges, and the way from vertex to vertex.

use super::frame::Point;
use super::pen::Pen;
use super::view::View;
use crate::sheet::Sheet;
use sehmelir::Form;
use std::iter::zip;

/// The data of an SVG path and how many lines it has: the edges of the bodies
/// whose marks are as wanted.
pub fn bodies(
    view: View,
    tolerance: i64,
    sheet: &Sheet,
    marks: &[bool],
    wanted: bool,
) -> (String, usize) {
    let mut pen = Pen::new(view, tolerance);
    for (body, _) in zip(sheet.bodies(), marks).filter(|(_, &mark)| mark == wanted) {
        for [ax, ay, bx, by] in sheet.edges(body.clone()) {
            pen.line(Point::of(ax, ay), Point::of(bx, by));
        }
    }
    pen.finish()
}

/// The data of an SVG path: the way from vertex to vertex, and of a closed kerb
/// back to the first.
pub fn way(view: View, sheet: &Sheet) -> String {
    let mut pen = Pen::new(view, 0);
    let mut line = |pair: [[i32; 3]; 2]| {
        let [start, end] = pair.map(|[x, y, _]| Point::of(x, y));
        pen.line(start, end);
    };
    let vertices = sheet.vertices();
    vertices
        .windows(2)
        .for_each(|pair| line([pair[0], pair[1]]));
    let closed = matches!(sheet.form(), Form::Kerb(style) if style.closed);
    if let ([first, .., last], true) = (vertices, closed) {
        line([*last, *first]);
    }
    pen.finish().0
}
