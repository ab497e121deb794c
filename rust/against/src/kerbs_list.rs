//! A kerb and the outer side of each of its joins as a line of text.

use crate::kerbs::{Kerb, Point, Shape};
use plain::kerbs::{Join, Style};

/// The lines that the list begins with.
pub const HEAD: &str = "\
# Kerbs, and the outer side of each of their joins in what the crate's own text
# gave: `right`, `left`, or `either` where the line turns back. README.md says
# how this list was made; `run FOLDER kerbs-list` prints it again.
";

/// The sides of a shape, in words.
pub fn sides(shape: &Option<Shape>) -> Vec<&'static str> {
    let Some(shape) = shape else {
        return vec!["in another order"];
    };
    let side = |right, left| match (right, left) {
        (true, true) => "either",
        (true, false) => "right",
        _ => "left",
    };
    let joints = shape.joints.iter();
    joints.map(|joint| side(joint.right, joint.left)).collect()
}

/// A kerb, and the sides of its joins, as a line.
pub fn line(kerb: &Kerb, sides: &[&str]) -> String {
    let Style {
        radius,
        join,
        closed,
    } = kerb.style;
    let join = match join {
        Join::Bevel => "bevel",
        Join::Round => "round",
    };
    let ends = if closed { "closed" } else { "open" };
    let mut line = format!("{radius} {join} {ends}");
    for [x, y] in &kerb.points {
        line.push_str(&format!(" ({x},{y})"));
    }
    line.push(':');
    for side in sides {
        line.push_str(&format!(" {side}"));
    }
    line
}

/// The kerb of a line and the sides beside it, if it is a line of the list.
pub fn parse(line: &str) -> Option<(Kerb, Vec<&str>)> {
    let (kerb, sides) = line.split_once(':')?;
    let mut words = kerb.split_whitespace();
    let radius = words.next()?.parse().ok()?;
    let join = match words.next()? {
        "bevel" => Join::Bevel,
        "round" => Join::Round,
        _ => return None,
    };
    let closed = match words.next()? {
        "closed" => true,
        "open" => false,
        _ => return None,
    };
    let style = Style {
        radius,
        join,
        closed,
    };
    let points: Option<Vec<Point>> = words.map(point).collect();
    let kerb = Kerb {
        points: points?,
        style,
    };
    Some((kerb, sides.split_whitespace().collect()))
}

fn point(word: &str) -> Option<Point> {
    let inside = word.strip_prefix('(')?.strip_suffix(')')?;
    let (x, y) = inside.split_once(',')?;
    Some([x.parse().ok()?, y.parse().ok()?])
}

/// Kerbs that a reading is told by, in every style.
pub fn fixed() -> Vec<Kerb> {
    let lines: [&[Point]; 11] = [
        &[],
        &[[3, 4]],
        &[[3, 4], [3, 4]],
        &[[0, 0], [20, 0]],
        &[[0, 0], [20, 0], [40, 0]],
        &[[0, 0], [20, 0], [0, 0]],
        &[[0, 0], [20, 0], [20, 20]],
        &[[0, 0], [20, 0], [20, -20]],
        &[[0, 0], [20, 0], [20, 0], [20, 20], [20, 20]],
        &[[0, 0], [40, 0], [0, 40], [0, 0]],
        &[[0, 0], [20, 0], [20, 20], [40, 20], [40, -20]],
    ];
    let mut kerbs = Vec::new();
    for points in lines {
        for join in [Join::Bevel, Join::Round] {
            for closed in [false, true] {
                let style = Style {
                    radius: 5,
                    join,
                    closed,
                };
                let points = points.to_vec();
                kerbs.push(Kerb { points, style });
            }
        }
    }
    kerbs
}
