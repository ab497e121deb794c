//! The region that edges enclose, and what it should be.

use crate::geos::{Geos, Shape};
use crate::kerbs::Kerb;
use crate::strokes::Stroke;
use plain::contacts::{kind, Kind, Vertex};
use sehmelir::Join;
use std::f64::consts::PI;

/// How often edges run round a point, counterclockwise.
pub fn winding(edges: &[[i32; 4]], [x, y]: [f64; 2]) -> i64 {
    let crosses = |&[ax, ay, bx, by]: &[i32; 4]| {
        let [ax, ay, bx, by] = [ax, ay, bx, by].map(f64::from);
        let left = (bx - ax) * (y - ay) - (by - ay) * (x - ax);
        match (ay <= y, by <= y) {
            (true, false) if left > 0.0 => 1,
            (false, true) if left < 0.0 => -1,
            _ => 0,
        }
    };
    edges.iter().map(crosses).sum()
}

/// A face between edges, and how often they run round it.
pub struct Face<'a> {
    pub shape: Shape<'a>,
    pub times: i64,
}

/// The faces between edges.
pub fn faces<'a>(geos: &'a Geos, edges: &[[i32; 4]]) -> Vec<Face<'a>> {
    let line =
        |&[ax, ay, bx, by]: &[i32; 4]| geos.line(&[[ax as f64, ay as f64], [bx as f64, by as f64]]);
    let lines = geos.lines(edges.iter().map(line).collect());
    let face = |shape: Shape<'a>| {
        let times = winding(edges, shape.inside());
        Face { shape, times }
    };
    lines.united().faces().into_iter().map(face).collect()
}

/// The least number of times that a face is run round. A sliver between two
/// edges that cut each other has no inside to ask.
pub fn least(faces: &[Face]) -> i64 {
    let wide = faces.iter().filter(|face| face.shape.area() > 1.0);
    wide.map(|face| face.times).min().unwrap_or(0).min(0)
}

/// The faces that are not run round 0 times, as one.
pub fn filled<'a>(geos: &'a Geos, faces: Vec<Face<'a>>) -> Shape<'a> {
    let faces = faces.into_iter().filter(|face| face.times != 0);
    geos.merged(faces.map(|face| face.shape).collect())
}

fn towards([ax, ay]: [f64; 2], [bx, by]: [f64; 2]) -> [f64; 2] {
    let length = (bx - ax).hypot(by - ay);
    [(bx - ax) / length, (by - ay) / length]
}

/// Points on an arc, its ends among them, in steps of at most so many degrees.
fn arc([x, y]: [f64; 2], radius: f64, from: f64, turn: f64, degrees: f64) -> Vec<[f64; 2]> {
    let steps = (turn.abs().to_degrees() / degrees).ceil().max(1.0) as i32;
    let point = |step: i32| {
        let angle = from + turn * step as f64 / steps as f64;
        [x + radius * angle.cos(), y + radius * angle.sin()]
    };
    (0..=steps).map(point).collect()
}

/// Points on a vertex's circle.
fn about(vertex: Vertex, from: f64, turn: f64) -> Vec<[f64; 2]> {
    let centre = [vertex.x as f64, vertex.y as f64];
    arc(centre, vertex.radius as f64, from, turn, 1.0)
}

/// What a stroke should fill together: of each drawn step the two circles and
/// all that lies between them, and every circle whose radius is 2 or more.
pub fn hulls<'a>(geos: &'a Geos, stroke: &Stroke) -> Vec<Shape<'a>> {
    let path = stroke.vertices();
    let mut hulls = Vec::new();
    let drawn = |step: &[Vertex]| kind(step[0], step[1]) == Kind::Drawn;
    for step in path.windows(2).filter(|step| drawn(step)) {
        let (a, b) = (step[0], step[1]);
        let (x, y) = ((b.x - a.x) as f64, (b.y - a.y) as f64);
        let way = y.atan2(x);
        // how far to either side of the way the contacts lie
        let aside = ((a.radius - b.radius) as f64 / x.hypot(y)).acos();
        let mut hull = about(a, way + aside, 2.0 * (PI - aside));
        hull.extend(about(b, way - aside, 2.0 * aside));
        hulls.push(geos.polygon(&hull));
    }
    for (place, &vertex) in path.iter().enumerate().filter(|(_, v)| v.radius >= 2) {
        let steps = &path[place.saturating_sub(1)..path.len().min(place + 2)];
        if !steps.windows(2).any(drawn) {
            hulls.push(geos.polygon(&about(vertex, 0.0, 2.0 * PI)[1..]));
        }
    }
    hulls
}

/// A rectangle along each line of a kerb, and at each corner a triangle or a
/// sector on its outer side.
pub fn pieces<'a>(geos: &'a Geos, kerb: &Kerb) -> Shape<'a> {
    let (line, radius) = (kerb.line(), kerb.style.radius as f64);
    let mut pieces = Vec::new();
    let mut ways = Vec::new();
    for ends in line.windows(2) {
        let [x, y] = towards(ends[0], ends[1]);
        let [across_x, across_y] = [-y * radius, x * radius];
        let left = |[x, y]: [f64; 2]| [x + across_x, y + across_y];
        let right = |[x, y]: [f64; 2]| [x - across_x, y - across_y];
        let corners = [right(ends[0]), right(ends[1]), left(ends[1]), left(ends[0])];
        pieces.push(geos.polygon(&corners));
        ways.push([x, y]);
    }
    let mut corners: Vec<_> = (1..ways.len())
        .map(|place| (line[place], ways[place - 1], ways[place]))
        .collect();
    if kerb.style.closed {
        corners.push((line[0], ways[ways.len() - 1], ways[0]));
    }
    for (centre, before, after) in corners {
        pieces.extend(corner(geos, kerb.style.join, radius, centre, before, after));
    }
    geos.union(pieces)
}

/// The outer side of a corner, if it has any.
fn corner<'a>(
    geos: &'a Geos,
    join: Join,
    radius: f64,
    centre: [f64; 2],
    [ax, ay]: [f64; 2],
    [bx, by]: [f64; 2],
) -> Option<Shape<'a>> {
    let turn = (ax * by - ay * bx).atan2(ax * bx + ay * by);
    if turn.abs() < 1e-12 || (join == Join::Bevel && turn.abs() > PI - 1e-12) {
        return None;
    }
    let side = if turn > 0.0 { -1.0 } else { 1.0 };
    let start = (side * ax).atan2(-side * ay);
    let mut points = arc(centre, radius, start, turn, 0.25);
    if join == Join::Bevel {
        points = vec![points[0], points[points.len() - 1]];
    }
    points.push(centre);
    if side > 0.0 {
        points.reverse();
    }
    Some(geos.polygon(&points))
}
