//! What is drawn.

use plain::random::Random;

/// A path with a name.
pub struct Input {
    pub name: String,
    pub path: Vec<i32>,
}

impl Input {
    fn new(name: String, vertices: impl Iterator<Item = [i32; 3]>) -> Input {
        let path = vertices.flatten().collect();
        Input { name, path }
    }

    /// A line that winds onwards, its width never the same: every step is
    /// drawn, and every joint is round on one side.
    pub fn hedge(count: usize) -> Input {
        Input::random_hedge(&mut Random::new(7), count)
    }

    fn random_hedge(random: &mut Random, count: usize) -> Input {
        let (mut x, mut y) = (0, 0);
        let vertices = (0..count).map(|_| {
            let vertex = [x, y, random.between(400, 699) as i32];
            x += random.between(1500, 2499) as i32;
            y += random.between(-800, 800) as i32;
            vertex
        });
        Input::new(format!("hedge of {count}"), vertices)
    }

    /// A sheet of short lines: hedges of 2 to 40 vertices.
    pub fn lines(count: usize) -> Vec<Input> {
        let mut random = Random::new(34);
        let mut line = || {
            let vertices = random.between(2, 40) as usize;
            Input::random_hedge(&mut random, vertices)
        };
        (0..count).map(|_| line()).collect()
    }

    /// The same path cut into pieces of so many vertices, each an input.
    pub fn cut(&self, vertices: usize) -> Vec<Input> {
        let pieces = self.path.chunks(3 * vertices);
        let piece = |path: &[i32]| Input {
            name: self.name.clone(),
            path: path.to_vec(),
        };
        pieces.map(piece).collect()
    }

    /// A sheet of circles: every step is broken, and every vertex is a circle.
    /// For that each lies within the one before it, so radii fall by more than
    /// the points, which go in rows of thirty, lie apart.
    pub fn circles(count: usize) -> Input {
        let vertices = (0..count as i32).map(|place| {
            [
                20 * (place % 30),
                20 * (place / 30),
                600 * (count as i32 - place),
            ]
        });
        Input::new(format!("{count} circles"), vertices)
    }

    /// Circles about one point, the largest first: below a radius of 512 some
    /// edges at the finest grade have no length.
    pub fn small_circles(count: usize) -> Input {
        let vertices = (0..count as i32).map(|place| [0, 0, 1 + count as i32 - place]);
        Input::new(format!("{count} small circles"), vertices)
    }

    pub fn vertices(&self) -> usize {
        self.path.len() / 3
    }

    /// The index of the vertex in the middle.
    pub fn middle(&self) -> usize {
        self.vertices() / 2
    }

    /// The vertex of an index.
    pub fn vertex(&self, index: usize) -> [i32; 3] {
        let at = 3 * index;
        [self.path[at], self.path[at + 1], self.path[at + 2]]
    }

    /// Where replacing moves it.
    pub fn moved_vertex(&self, index: usize) -> [i32; 3] {
        let [x, y, radius] = self.vertex(index);
        [x + 3, y - 5, radius + 2]
    }

    /// The path with that vertex moved.
    pub fn moved_path(&self, index: usize) -> Vec<i32> {
        let mut path = self.path.clone();
        path[3 * index..][..3].copy_from_slice(&self.moved_vertex(index));
        path
    }
}
