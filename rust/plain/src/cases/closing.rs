//! Cases that try whether boundaries close: paths that other lists have few of,
//! and kerbs.

use super::line;
use plain::contacts::LIMIT;
use plain::random::Random;

type Triple = [i64; 3];

/// `count` cases that `seed` determines, in the form of the calls' cases: draw,
/// with no room lent; and a fifth of them kerbs, in a form of their own.
pub fn random(seed: u64, count: usize) -> impl Iterator<Item = String> {
    let mut random = Random::new(seed);
    (0..count).map(move |_| {
        if random.chance(20) {
            return kerb(&mut random);
        }
        let path = path(&mut random);
        let grade = random.between(1, 8);
        let mut numbers = vec![1, grade, 0, 3 * path.len() as i64];
        numbers.extend(path.as_flattened());
        line(&numbers)
    })
}

/// A kerb of any style: points on a small or a large sheet, some of them twice,
/// straight on or straight back.
fn kerb(random: &mut Random) -> String {
    let side = random.pick(&[2, 5, 40, 3000, LIMIT]);
    let wide = random.pick(&[2, 9, 500, LIMIT]);
    let radius = random.between(0, wide);
    let mut points: Vec<i64> = Vec::new();
    for _ in 0..random.between(1, 9) {
        let [x, y, _] = vertex(random, side, 0);
        let before = points.last_chunk::<4>().copied();
        match before {
            Some([_, _, ax, ay]) if random.chance(10) => points.extend([ax, ay]),
            Some([ax, ay, _, _]) if random.chance(10) => points.extend([ax, ay]),
            Some([ax, ay, bx, by]) if random.chance(15) => {
                points.extend([2 * bx - ax, 2 * by - ay].map(|n| n.clamp(-LIMIT, LIMIT)))
            }
            _ => points.extend([x, y]),
        }
    }
    let (join, closed) = (random.between(0, 1), random.between(0, 1));
    let head = [6, random.between(1, 8), radius, join, closed];
    let mut numbers = head.to_vec();
    numbers.push(points.len() as i64);
    numbers.extend(points);
    line(&numbers)
}

pub(super) fn path(random: &mut Random) -> Vec<Triple> {
    match random.below(10) {
        0..4 => away_and_back(random),
        4..7 => crowd(random),
        _ => nearly_swallowed(random),
    }
}

/// A vertex at most so far from the middle.
fn vertex(random: &mut Random, side: i64, radius: i64) -> Triple {
    let (x, y) = (random.between(-side, side), random.between(-side, side));
    [x, y, random.between(0, radius)]
}

/// A drawn step to a point of radius 0 or 1, thin steps from there and back to
/// it, where its radius may be another, and a drawn step on.
fn away_and_back(random: &mut Random) -> Vec<Triple> {
    let side = random.pick(&[2, 3, 9, 500, 100_000]);
    let wide = random.pick(&[2, 4, 60]);
    let mut path = vec![vertex(random, side, wide)];
    for _ in 0..random.between(1, 3) {
        let point = vertex(random, side, 1);
        path.push(point);
        for _ in 0..random.between(1, 3) {
            path.push(vertex(random, side, 1));
        }
        path.push([point[0], point[1], random.between(0, 1)]);
        path.push(vertex(random, side, wide));
    }
    path
}

/// Small circles close together: broken, covered, thin and drawn steps by
/// turns.
fn crowd(random: &mut Random) -> Vec<Triple> {
    let (side, radius) = random.pick(&[(2, 2), (3, 2), (4, 6), (12, 8), (40, 30)]);
    let count = random.between(2, 12);
    (0..count).map(|_| vertex(random, side, radius)).collect()
}

/// Wide circles that all but hold one another: caps and joins that go nearly
/// all the way about.
fn nearly_swallowed(random: &mut Random) -> Vec<Triple> {
    let mut radius = LIMIT >> random.below(20);
    let mut at = [0, 0];
    let mut path = Vec::new();
    for _ in 0..random.between(2, 4) {
        path.push([at[0], at[1], radius]);
        let apart = random.between(0, radius / 2);
        let grown = random.pick(&[apart, -apart]) + random.between(-3, 3);
        let way = random.pick(&[[1, 0], [0, 1], [-1, 0], [0, -1]]);
        let beside = random.between(-3, 3);
        at[0] += way[0] * apart + way[1] * beside;
        at[1] += way[1] * apart + way[0] * beside;
        at = at.map(|n: i64| n.clamp(-LIMIT, LIMIT));
        radius = (radius + grown).clamp(0, LIMIT);
    }
    path
}

#[cfg(test)]
mod tests {
    use super::*;
    use plain::contacts::Vertex;

    #[test]
    fn paths_lie_inside_the_limits() {
        let mut random = Random::new(6);
        for _ in 0..2_000 {
            for [x, y, radius] in path(&mut random) {
                assert!(Vertex::new(x, y, radius).allowed());
            }
        }
    }
}
