//! Stores whose edges the small program of document 02's request 1 names.

use super::closing::path;
use plain::contacts::Vertex;
use plain::outline::{first_edition, second_edition};
use plain::random::Random;

/// Joins to both sides, a gap after thin steps, a step that breaks the chain,
/// and a vertex by itself at the end: every reason is there.
const PATH: [[i64; 3]; 8] = [
    [0, 0, 5],
    [40, 0, 6],
    [60, 30, 5],
    [90, 30, 5],
    [100, 30, 0],
    [102, 30, 1],
    [130, 30, 5],
    [130, 31, 40],
];

/// That path kept at grade 3, with a number at some of its points.
pub fn store() -> Vec<u8> {
    let path = PATH.map(|[x, y, radius]| Vertex::new(x, y, radius));
    second_edition(&path, &[411, 412, 0, u32::MAX], 3)
}

/// A store of either edition that `seed` determines; one in five has a byte
/// changed or is cut.
pub fn random(seed: u64) -> Vec<u8> {
    let mut random = Random::new(seed);
    let path: Vec<Vertex> = path(&mut random)
        .into_iter()
        .map(|[x, y, radius]| Vertex::new(x, y, radius))
        .collect();
    let grade = random.between(1, 8) as u32;
    let mut store = match random.chance(40) {
        true => first_edition(&path, grade),
        false => {
            let number = |_: &Vertex| random.between(0, u32::MAX as i64) as u32;
            let numbers: Vec<u32> = path.iter().map(number).collect();
            second_edition(&path, &numbers, grade)
        }
    };
    let place = random.below(store.len() as u64) as usize;
    match random.below(10) {
        0 => store[place] ^= 1 << random.below(8),
        1 => store.truncate(place),
        _ => (),
    }
    store
}

#[cfg(test)]
mod tests {
    use plain::reasons::{printed, Reason};

    #[test]
    fn every_reason_is_there() {
        let text = printed(&super::store());
        for reason in [
            Reason::LeftSide,
            Reason::RightSide,
            Reason::StartCap,
            Reason::EndCap,
            Reason::LeftJoin,
            Reason::RightJoin,
            Reason::Gap,
            Reason::Circle,
        ] {
            assert!(text.contains(reason.words()), "{reason:?} is missing");
        }
    }
}
