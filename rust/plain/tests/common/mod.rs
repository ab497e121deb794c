//! What the tests share.

#![allow(dead_code)]

use plain::chains::bodies;
use plain::contacts::Vertex;
use plain::outline::{first_edition, second_edition};
use plain::random::Random;

pub type Triple = (i32, i32, i32);

/// A path as lent numbers.
pub fn numbers(path: &[Triple]) -> Vec<i32> {
    path.iter().flat_map(|&(x, y, r)| [x, y, r]).collect()
}

/// A path as vertices.
pub fn vertices(path: &[Triple]) -> Vec<Vertex> {
    let vertex = |&(x, y, r): &Triple| Vertex::new(x as i64, y as i64, r as i64);
    path.iter().map(vertex).collect()
}

/// How many edges each body has, the closing body last.
pub fn counts(path: &[Triple], grade: u32) -> Vec<usize> {
    bodies(&vertices(path), grade)
        .iter()
        .map(Vec::len)
        .collect()
}

/// A random vertex: coordinates to `side`, radius to `radius`.
pub fn random_vertex(random: &mut Random, side: i64, radius: i64) -> Triple {
    (
        random.between(-side, side) as i32,
        random.between(-side, side) as i32,
        random.between(0, radius) as i32,
    )
}

/// A random scale: how far coordinates and radii go.
pub fn random_scale(random: &mut Random) -> (i64, i64) {
    random.pick(&[
        (3, 2),
        (8, 4),
        (30, 12),
        (30, 12),
        (1000, 300),
        (1 << 20, 1 << 18),
        (1 << 28, 1 << 28),
    ])
}

/// A random path: few vertices, at a random scale, points repeated now and
/// then.
pub fn random_path(random: &mut Random, most: u64) -> Vec<Triple> {
    let (side, radius) = random_scale(random);
    let mut path: Vec<Triple> = Vec::new();
    for _ in 0..random.below(most + 1) {
        let fresh = random_vertex(random, side, radius);
        let vertex = match path.last() {
            Some(&(x, y, _)) if random.chance(8) => (x, y, fresh.2),
            Some(&(x, _, r)) if random.chance(15) => (x, fresh.1, r),
            _ => fresh,
        };
        path.push(vertex);
    }
    path
}

/// The sound outline of edition 1 of a path, as an older program kept it even
/// where there are no edges.
pub fn kept(path: &[Triple], grade: u32) -> Vec<u8> {
    first_edition(&vertices(path), grade)
}

/// The sound outline of edition 2 of a path with these point numbers.
pub fn numbered(path: &[Triple], numbers: &[u32], grade: u32) -> Vec<u8> {
    second_edition(&vertices(path), numbers, grade)
}

/// A random point number: any word.
pub fn random_number(random: &mut Random) -> u32 {
    random.between(0, u32::MAX as i64) as u32
}

/// A random point number for each vertex.
pub fn random_numbers(random: &mut Random, path: &[Triple]) -> Vec<u32> {
    path.iter().map(|_| random_number(random)).collect()
}
