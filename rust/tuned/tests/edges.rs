//! Not one edge differs from `plain`'s.

#[path = "../../plain/tests/common/mod.rs"]
mod common;

/// The paths by which `plain` tries whether boundaries close.
#[allow(dead_code)]
#[path = "../../plain/src/cases/closing.rs"]
mod closing;

/// What writes a case's numbers there: here no case is written.
fn line<T>(_: &[T]) -> String {
    String::new()
}

use common::{numbers, random_path, random_vertex, vertices, Triple};
use plain::chains::walk;
use plain::contacts::LIMIT;
use plain::random::Random;

const GRADES: std::ops::RangeInclusive<u32> = 1..=8;

fn check(path: &[Triple], grade: u32) {
    let due = walk(&vertices(path), grade).edges.concat();
    let mut room = vec![0; due.len()];
    let edges = tuned::draw(&numbers(path), grade, &mut room);
    let same = 4 * edges == due.len() && room == due;
    assert!(same, "{path:?} at grade {grade}");
}

#[test]
fn paths_of_every_scale() {
    let mut random = Random::new(31);
    for _ in 0..8_000 {
        let path = random_path(&mut random, 9);
        check(&path, random.between(1, 8) as u32);
    }
}

#[test]
fn thin_steps_and_circles_that_all_but_hold_one_another() {
    let mut random = Random::new(32);
    for _ in 0..8_000 {
        let path: Vec<Triple> = closing::path(&mut random)
            .iter()
            .map(|vertex| vertex.map(|number| number as i32).into())
            .collect();
        check(&path, random.between(1, 8) as u32);
    }
}

#[test]
fn hedges() {
    let mut random = Random::new(33);
    for grade in GRADES {
        let mut x = 0;
        let vertex = |_| {
            x += random.between(1500, 2499) as i32;
            let (_, y, radius) = random_vertex(&mut random, 800, 299);
            (x, y, 400 + radius)
        };
        check(&(0..400).map(vertex).collect::<Vec<Triple>>(), grade);
    }
}

/// Lines of one width that turn by right angles, go on straight, and turn back.
#[test]
fn kerbs() {
    let mut random = Random::new(34);
    for _ in 0..1_000 {
        let radius = random.between(0, 300) as i32;
        let (mut x, mut y) = (0, 0);
        let vertex = |_| {
            match random.below(4) {
                0 => x += random.between(0, 4000) as i32,
                1 => x -= random.between(0, 4000) as i32,
                2 => y += random.between(0, 4000) as i32,
                _ => y -= random.between(0, 4000) as i32,
            }
            (x, y, radius)
        };
        let path: Vec<Triple> = (0..12).map(vertex).collect();
        check(&path, random.between(1, 8) as u32);
    }
}

#[test]
fn circles() {
    let mut random = Random::new(35);
    for grade in GRADES {
        for radius in (0..600).chain([1 << 20, LIMIT as i32]) {
            let (x, y, _) = random_vertex(&mut random, LIMIT, 0);
            check(&[(x, y, radius)], grade);
        }
    }
}
