//! Cases of "Numbers underneath", at the ends of what the rules reach.

use super::line;
use plain::numbers::{direction, step_of_grade, Point};
use plain::random::Random;

const UNIT: i128 = 1 << 30;
const LIMIT: i128 = 1 << 28;

/// Both signs of a number, 0 once.
fn signs(n: i128) -> Vec<i128> {
    match n {
        0 => vec![0],
        n => vec![n, -n],
    }
}

/// A pair in all four quadrants.
fn quadrants(x: i128, y: i128) -> Vec<(i128, i128)> {
    let pairs = |x| signs(y).into_iter().map(move |y| (x, y));
    signs(x).into_iter().flat_map(pairs).collect()
}

/// A number and its two neighbours.
fn around(n: i128) -> [i128; 3] {
    [n - 1, n, n + 1]
}

pub fn list() -> Vec<String> {
    let mut random = Random::new(1);
    let mut cases: Vec<Vec<i128>> = Vec::new();
    roots(&mut cases, &mut random);
    products(&mut cases, &mut random);
    quotients(&mut cases, &mut random);
    directions(&mut cases, &mut random);
    cases.extend((1..=8).map(|grade| vec![5, grade]));
    rotations(&mut cases);
    scalings(&mut cases, &mut random);
    shifts(&mut cases, &mut random);
    cases.iter().map(|case| line(case)).collect()
}

fn roots(cases: &mut Vec<Vec<i128>>, random: &mut Random) {
    let mut numbers: Vec<i128> = vec![0, 1, 2, 3, 15, 16];
    for bit in 0..64 {
        numbers.extend(around(1 << bit));
    }
    for near in [1 << 16, 1 << 24, 1 << 31, (1 << 32) - 2] {
        for root in around(near) {
            numbers.extend(around(root * root));
        }
    }
    numbers.push(u64::MAX as i128);
    for bits in 0..32 {
        numbers.push((random.word() >> (2 * bits)) as i128);
    }
    cases.extend(numbers.into_iter().map(|n| vec![1, n]));
}

fn products(cases: &mut Vec<Vec<i128>>, random: &mut Random) {
    let corners: [i128; 14] = [
        0,
        1,
        2,
        3,
        (1 << 16) + 1,
        1 << 24,
        (1 << 31) - 1,
        1 << 31,
        (1 << 32) - 1,
        1 << 32,
        (1 << 32) + 1,
        (1 << 63) - 1,
        1 << 63,
        (1 << 64) - 1,
    ];
    for a in corners {
        cases.extend(corners.iter().map(|&b| vec![2, a, b]));
    }
    for _ in 0..40 {
        let (a, b) = (random.word(), random.word());
        let (less, fewer) = (random.below(64), random.below(64));
        cases.push(vec![2, (a >> less) as i128, (b >> fewer) as i128]);
    }
}

fn quotients(cases: &mut Vec<Vec<i128>>, random: &mut Random) {
    let mut quotient = |a: i128, b: i128, d: i128| cases.push(vec![3, a, b, d]);
    for (a, b) in quadrants(5, 3) {
        quotient(a, b, 2);
    }
    // Exact halves, and one off them, at each sign.
    for d in [2, 6, 8, 10, UNIT, (1 << 60) + 2, (1 << 61) - 2, 1 << 61] {
        for (b, a) in [
            (d / 2, 1),
            (d / 2, LIMIT - 1),
            (d / 2 + 1, 1),
            (d / 2 - 1, 1),
        ] {
            for (a, b) in quadrants(a, b) {
                quotient(a, b, d);
            }
        }
    }
    // Divisors odd and even, small and large, with factors at their ends.
    let divisors: [i128; 16] = [
        1,
        2,
        3,
        4,
        5,
        7,
        UNIT - 1,
        UNIT,
        UNIT + 1,
        (1 << 59) + 1,
        1 << 60,
        (1 << 60) - 1,
        (1 << 61) - 2,
        (1 << 61) - 1,
        (1 << 62) - 2,
        (1 << 62) - 1,
    ];
    let mut turn = 0;
    for d in divisors {
        for a in [1, 3, LIMIT] {
            let mut factors = vec![0, 1, (d - 1) / 2, d / 2, (d + 1) / 2, d - 1, d];
            factors.sort();
            factors.dedup();
            for b in factors {
                let choices = quadrants(a, b);
                let (a, b) = choices[turn % choices.len()];
                quotient(a, b, d);
                turn += 1;
            }
        }
    }
    for _ in 0..60 {
        let bits = random.between(1, 61);
        let d = 1 + random.below(1 << bits) as i64;
        let a = random.between(-(LIMIT as i64), LIMIT as i64);
        let b = random.between(-d, d);
        quotient(a as i128, b as i128, d as i128);
    }
}

/// Rays along axes and diagonals and close to them, in all four quadrants.
fn corner_rays() -> Vec<(i128, i128)> {
    let rays = [
        (1, 0),
        (0, 1),
        (0, 7),
        (7, 0),
        (LIMIT, 0),
        (0, LIMIT),
        (2 * LIMIT, 0),
        (0, 2 * LIMIT),
        (1, 1),
        (LIMIT, LIMIT),
        (2 * LIMIT, 2 * LIMIT),
        (1, LIMIT),
        (LIMIT, 1),
        (1, 2 * LIMIT),
        (2 * LIMIT, 1),
        (LIMIT, LIMIT - 1),
        (LIMIT - 1, LIMIT),
        (2 * LIMIT, 2 * LIMIT - 1),
        (3, 4),
        (5, 12),
        (65535, 512),
    ];
    rays.into_iter()
        .flat_map(|(x, y)| quadrants(x, y))
        .collect()
}

fn directions(cases: &mut Vec<Vec<i128>>, random: &mut Random) {
    cases.extend(corner_rays().into_iter().map(|(x, y)| vec![4, x, y]));
    for x in 0..=4 {
        for y in 0..=4 {
            if (x, y) != (0, 0) {
                let sign = [1, -1][(x as usize + y as usize) % 2];
                cases.push(vec![4, x, sign * y]);
            }
        }
    }
    for turn in 0..90 {
        let bits = 2 + turn % 28;
        let mut side = || random.between(-(1 << bits), 1 << bits) as i128;
        let (x, y) = (side(), side());
        if (x, y) != (0, 0) {
            cases.push(vec![4, x, y]);
        }
    }
}

fn rotations(cases: &mut Vec<Vec<i128>>) {
    let rays = [
        (1, 0),
        (0, 1),
        (1, 1),
        (3, 4),
        (1, LIMIT),
        (LIMIT, LIMIT - 1),
    ];
    for grade in 1..=8 {
        let step = step_of_grade(grade);
        for (x, y) in rays.into_iter().flat_map(|(x, y)| quadrants(x, y)) {
            let from = direction(Point::new(x as i64, y as i64));
            let numbers = [step.x, step.y, from.x, from.y].map(i128::from);
            cases.push([&[6], numbers.as_slice()].concat());
        }
    }
    // The cut towards zero shows best in short vectors.
    let step = step_of_grade(1);
    for (x, y) in [(1, 0), (0, 1), (1, 1), (2, 1), (1, 2)] {
        for (x, y) in quadrants(x, y) {
            cases.push(vec![6, step.x as i128, step.y as i128, x, y]);
        }
    }
}

fn scalings(cases: &mut Vec<Vec<i128>>, random: &mut Random) {
    let mut scaling = |component: i128, radius: i128| cases.push(vec![7, component, radius]);
    for radius in [0, 1, 2, LIMIT] {
        for component in [0, 1, UNIT / 2, UNIT - 1, UNIT] {
            for component in signs(component) {
                scaling(component, radius);
            }
        }
    }
    // Exact halves, and one off them.
    for (component, radius) in [
        (UNIT / 2, 1),
        (UNIT / 2, 3),
        (UNIT / 2, LIMIT - 1),
        (UNIT / 4, 2),
        (UNIT / 4, 6),
        (2, LIMIT),
        (6, LIMIT),
        (UNIT - 2, LIMIT),
    ] {
        for near in around(component) {
            for component in signs(near) {
                scaling(component, radius);
            }
        }
    }
    for _ in 0..40 {
        let component = random.between(-(UNIT as i64), UNIT as i64);
        let bits = random.between(1, 28);
        scaling(component as i128, random.between(0, 1 << bits) as i128);
    }
}

fn shifts(cases: &mut Vec<Vec<i128>>, random: &mut Random) {
    for bit in 0..60 {
        cases.push(vec![8, 1 << bit]);
        if bit > 1 {
            cases.push(vec![8, (1 << bit) - 1]);
        }
    }
    for bits in (5..50).step_by(3) {
        cases.push(vec![8, 1 + (random.word() >> bits) as i128]);
    }
}
