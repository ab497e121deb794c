//! The frames that hold a sheet, or the changed part of it: vertices with
//! their radii, and edges.

use super::frame::{fine, Frame, Point};
use super::Shown;
use crate::changes::Changes;
use crate::sheet::Sheet;
use std::iter::zip;

/// The frame of both sheets.
pub fn of_all(shown: Shown) -> Option<Frame> {
    together(framed(shown).filter_map(of_sheet))
}

/// The frame of what differs, as it was and as it is.
pub fn of_changed(shown: Shown) -> Option<Frame> {
    together(framed(shown).filter_map(|sheet| of_marked(sheet, shown.changes)))
}

/// The sheets that a frame must hold: of a spoiled one what lies within it is shown.
fn framed(shown: Shown<'_>) -> impl Iterator<Item = &Sheet> {
    let sheets = [shown.before, shown.after].into_iter();
    sheets.filter(|sheet| sheet.is_sound())
}

/// The frame of a sheet.
pub fn of_sheet(sheet: &Sheet) -> Option<Frame> {
    let vertices = sheet.vertices().iter().map(of_vertex);
    let edges = sheet.edges(0..sheet.edge_count()).map(of_edge);
    together(vertices.chain(edges))
}

/// The frame of a sheet's marked vertices and bodies.
fn of_marked(sheet: &Sheet, changes: &Changes) -> Option<Frame> {
    let vertices = zip(sheet.vertices(), &changes.vertices)
        .filter(|(_, &mark)| mark)
        .map(|(vertex, _)| of_vertex(vertex));
    let edges = zip(sheet.bodies(), &changes.bodies)
        .filter(|(_, &mark)| mark)
        .flat_map(|(body, _)| sheet.edges(body.clone()).map(of_edge));
    together(vertices.chain(edges))
}

/// The least frame that holds all of these.
pub fn together(frames: impl Iterator<Item = Frame>) -> Option<Frame> {
    frames.reduce(Frame::and)
}

/// The frame of a vertex with its radius.
pub fn of_vertex(&[x, y, radius]: &[i32; 3]) -> Frame {
    Frame::about(Point::of(x, y), fine(radius))
}

/// The frame of an edge.
fn of_edge([ax, ay, bx, by]: [i32; 4]) -> Frame {
    of_line(Point::of(ax, ay), Point::of(bx, by))
}

/// The frame of a line.
pub fn of_line(start: Point, end: Point) -> Frame {
    Frame::about(start, 0).and(Frame::about(end, 0))
}
