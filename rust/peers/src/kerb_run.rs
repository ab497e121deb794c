//! Kerbs beside GEOS' buffers and beside unions of rectangles and corners.

use crate::fill::{faces, filled, least, pieces};
use crate::geos::{Corner, Geos, Shape};
use crate::kerbs::{any, built, Kerb};
use crate::rounding::{beyond, round, rounded, SEGMENTS};
use plain::random::Random;
use sehmelir::Join;

/// How far a kerb's boundary may lie from the true one.
fn allowed(kerb: &Kerb) -> f64 {
    let radius = f64::from(kerb.style.radius);
    match kerb.style.join {
        Join::Bevel => rounded(radius),
        Join::Round => round(radius, kerb.grade),
    }
}

/// What a comparison found.
#[derive(Default)]
struct Found {
    kerbs: usize,
    outside: usize,
    /// The most that areas differ by, and that lies in one of both only, beside
    /// what is allowed along the whole boundary.
    area: f64,
    apart: f64,
}

impl Found {
    fn take(&mut self, kerb: &Kerb, ours: &Shape, theirs: &Shape) {
        self.kerbs += 1;
        let most = allowed(kerb);
        let room = most * theirs.length();
        let area = (ours.area() - theirs.area()).abs() / room;
        let apart = ours.difference(theirs).area() / room;
        let beyond = beyond(ours, theirs, most).max(beyond(theirs, ours, most));
        self.area = self.area.max(area);
        self.apart = self.apart.max(apart);
        if apart > 1.0 || beyond > 0.01 {
            self.outside += 1;
            if self.outside <= 5 {
                println!(
                    "  outside: {apart:.3} of what is allowed, {beyond:.3} beyond it: {kerb:?}"
                );
            }
        }
    }

    fn tell(&self, name: &str) {
        println!(
            "{name}: {} kerbs, {} outside; at most, of what is allowed along the boundary: \
             areas differ by {:.3}, in one only {:.3}",
            self.kerbs, self.outside, self.area, self.apart
        );
    }
}

/// The region that a kerb's edges enclose.
fn region<'a>(geos: &'a Geos, kerb: &Kerb, negative: &mut usize) -> Option<Shape<'a>> {
    let edges = kerb.edges();
    if edges.is_empty() {
        return None;
    }
    let faces = faces(geos, &edges);
    *negative += (least(&faces) < 0) as usize;
    Some(filled(geos, faces))
}

/// Compares so many of each sort; whether nothing lay outside.
pub fn run(geos: &Geos, count: u64, seed: u64) -> bool {
    let mut random = Random::new(seed);
    let (mut buffers, mut unions) = (Found::default(), Found::default());
    let mut negative = 0;
    for _ in 0..count {
        let kerb = built(&mut random);
        let corner = match kerb.style.join {
            Join::Bevel => Corner::Bevel,
            Join::Round => Corner::Round,
        };
        let line = geos.line(&kerb.line());
        let theirs = line.buffer(kerb.style.radius as f64, SEGMENTS, corner);
        if let Some(ours) = region(geos, &kerb, &mut negative) {
            buffers.take(&kerb, &ours, &theirs);
        }
        let kerb = any(&mut random);
        if let Some(ours) = region(geos, &kerb, &mut negative) {
            unions.take(&kerb, &ours, &pieces(geos, &kerb));
        }
    }
    buffers.tell("beside buffers");
    unions.tell("beside unions");
    println!("{negative} run round some point less than 0 times");
    buffers.outside + unions.outside + negative == 0
}
