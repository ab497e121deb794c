//! Smaller paths that show the same.

use against::labels::vertices;
use against::paths::{size, Path};

/// Most changes made to one path.
const MOST: usize = 1000;

/// A path no larger than `path` of which `shows` still holds: vertices are
/// left out and numbers brought nearer to 0 as long as that works.
pub fn shrunk(path: &[[i32; 3]], mut shows: impl FnMut(&[[i32; 3]]) -> bool) -> Path {
    let mut path = path.to_vec();
    for _ in 0..MOST {
        let found = smaller(&path)
            .into_iter()
            .find(|other| size(other) < size(&path) && allowed(other) && shows(other));
        match found {
            Some(found) => path = found,
            None => break,
        }
    }
    path
}

fn allowed(path: &[[i32; 3]]) -> bool {
    vertices(path).iter().all(|vertex| vertex.allowed())
}

/// What to try in the place of a path.
fn smaller(path: &[[i32; 3]]) -> Vec<Path> {
    let mut all = Vec::new();
    for place in 0..path.len() {
        let mut less = path.to_vec();
        less.remove(place);
        all.push(less);
        let [x, y, _] = path[place];
        let moved =
            |&[a, b, radius]: &[i32; 3]| Some([a.checked_sub(x)?, b.checked_sub(y)?, radius]);
        all.extend(path.iter().map(moved).collect::<Option<Path>>());
    }
    all.push(path.iter().map(|vertex| vertex.map(|n| n / 2)).collect());
    for place in 0..path.len() {
        for number in 0..3 {
            let n = path[place][number];
            for other in [0, n / 2, n - n / 4, n - n / 16, n - n / 256, n - n.signum()] {
                let mut less = path.to_vec();
                less[place][number] = other;
                all.push(less);
            }
        }
    }
    for part in [2, 4, 16, 256, 65536] {
        let less = |&[x, y, radius]: &[i32; 3]| [x, y, radius - radius / part];
        all.push(path.iter().map(less).collect());
    }
    all
}
