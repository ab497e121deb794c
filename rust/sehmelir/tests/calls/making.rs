//! Generated paths, grades, rooms and damage.

use plain::random::Random;

const MOST: i64 = 268435456;

/// Vertices of x, y and radius.
pub type Path = Vec<[i32; 3]>;

pub struct Maker {
    random: Random,
}

impl Maker {
    pub fn new(seed: u64) -> Maker {
        Maker {
            random: Random::new(seed),
        }
    }

    pub fn chance(&mut self, percent: u64) -> bool {
        self.random.chance(percent)
    }

    pub fn pick<T: Copy>(&mut self, choices: &[T]) -> T {
        self.random.pick(choices)
    }

    fn within(&mut self, side: i64, radius: i64) -> [i32; 3] {
        let random = &mut self.random;
        [(-side, side), (-side, side), (0, radius)]
            .map(|(least, most)| random.between(least, most) as i32)
    }

    /// A vertex of any size within the limits.
    pub fn vertex(&mut self) -> [i32; 3] {
        let (side, radius) = self.random.pick(&[(9, 6), (100, 40), (MOST, MOST)]);
        self.within(side, radius)
    }

    /// A vertex that lies outside the limits, if only just.
    pub fn vertex_outside(&mut self) -> [i32; 3] {
        let mut vertex = self.vertex();
        let past = MOST as i32 + 1;
        let place = self.random.below(3) as usize;
        vertex[place] = match place {
            2 => self.random.pick(&[-1, past, i32::MIN, i32::MAX]),
            _ => self.random.pick(&[past, -past, i32::MIN, i32::MAX]),
        };
        vertex
    }

    /// A path within the limits, of few vertices: at one of many scales, with
    /// straight runs, repeated points, equal radii and thin steps among them.
    pub fn path(&mut self, most: u64) -> Path {
        let scales = [
            (3, 2),
            (8, 4),
            (30, 12),
            (300, 1),
            (1000, 300),
            (1000, 4000),
            (1 << 20, 1 << 18),
            (MOST, 1000),
            (MOST, MOST),
        ];
        let (side, most_radius) = self.random.pick(&scales);
        let mut path = Path::new();
        for _ in 0..self.random.below(most + 1) {
            let [x, y, radius] = self.within(side, most_radius);
            let vertex = match (path.last(), self.random.below(100)) {
                (Some(&[x, y, _]), 0..8) => [x, y, radius],
                (Some(&[x, _, radius]), 8..20) => [x, y, radius],
                (Some(&[_, y, _]), 20..28) => [x, y, radius],
                (_, 28..36) => [x, y, radius % 2],
                _ => [x, y, radius],
            };
            path.push(vertex);
        }
        path
    }

    /// A kerb within the limits: the points of a path, and its style's words.
    pub fn kerb(&mut self, most: u64) -> (Vec<[i32; 2]>, [u32; 3]) {
        let path = self.path(most);
        let points = path.iter().map(|&[x, y, _]| [x, y]).collect();
        let most = self.random.pick(&[2, 6, 40, 3000, MOST]);
        let radius = self.random.between(0, most) as u32;
        let [join, closed] = [0; 2].map(|_| self.random.below(2) as u32);
        (points, [radius, join, closed])
    }

    /// The numbers of a kerb, and its style's words, which now and then are to
    /// be refused.
    pub fn lent_kerb(&mut self, most: u64) -> (Vec<i32>, [u32; 3]) {
        let (mut points, mut style) = self.kerb(most);
        let past = MOST as u32 + 1;
        if self.chance(6) {
            let place = self.index_below(3);
            style[place] = self.random.pick(&[2, 256, past, u32::MAX]);
        }
        if self.chance(8) && !points.is_empty() {
            let place = self.index_below(points.len());
            let side = self.index_below(2);
            points[place][side] = self.random.pick(&[past as i32, -(past as i32), i32::MIN]);
        }
        if self.chance(1) {
            points.resize(self.random.pick(&[4097, 5000]), [0; 2]);
        }
        let mut numbers = points.concat();
        if self.chance(4) {
            numbers.push(3);
        }
        (numbers, style)
    }

    /// The numbers of a path that now and then is to be refused.
    pub fn lent_path(&mut self, most: u64) -> Vec<i32> {
        let mut path = self.path(most);
        if self.chance(8) && !path.is_empty() {
            let place = self.index_below(path.len());
            path[place] = self.vertex_outside();
        }
        if self.chance(1) {
            path.resize(self.random.pick(&[4097, 5000]), [0; 3]);
        }
        let mut numbers = path.concat();
        if self.chance(4) {
            numbers.extend(self.random.pick(&[[1, 2].as_slice(), &[3]]));
        }
        numbers
    }

    /// A grade that lines are drawn at.
    pub fn grade(&mut self) -> u32 {
        self.random.pick(&[2, 2, 2, 2, 3, 3, 4, 5, 6, 7, 8])
    }

    /// A grade that outlines in stores have: also 1, at which they were kept once.
    pub fn stored_grade(&mut self) -> u32 {
        match self.chance(25) {
            true => 1,
            false => self.grade(),
        }
    }

    /// A grade that now and then is to be refused.
    pub fn lent_grade(&mut self) -> u32 {
        match self.chance(5) {
            true => self.random.pick(&[0, 1, 1, 9, 256, 257, u32::MAX]),
            false => self.grade(),
        }
    }

    /// How much room to lend where so much is needed: just that, more, or too
    /// little.
    pub fn room(&mut self, needed: usize) -> usize {
        match self.random.below(8) {
            0 => 0,
            1 => self.index_below(needed.max(1)),
            2 | 3 => needed.saturating_sub(1),
            4 => needed + 1 + self.index_below(40),
            _ => needed,
        }
    }

    pub fn index_below(&mut self, count: usize) -> usize {
        self.random.below(count as u64) as usize
    }

    /// An index that mostly is below `count`.
    pub fn index(&mut self, count: usize) -> usize {
        match self.random.below(20) {
            0 => count,
            1 => self.random.pick(&[count + 1, 4096, 1 << 32, usize::MAX]),
            _ => self.index_below(count.max(1)),
        }
    }

    /// A vertex to put in the place of another: that one a little changed, or
    /// any, or one to be refused.
    pub fn replacement(&mut self, old: Option<&[i32; 3]>) -> [i32; 3] {
        match (old, self.random.below(20)) {
            (_, 0) => self.vertex_outside(),
            (Some(&[x, y, radius]), 1..12) => {
                let [right, up, other] = self.within(3, 8);
                let radius = self.random.pick(&[radius, radius, other, 0, 1]);
                [x.saturating_add(right), y.saturating_add(up), radius]
            }
            _ => self.vertex(),
        }
    }

    /// Damages a kept kerb: a byte, a word that means something, or its length.
    pub fn damage_kerb(&mut self, store: &mut Vec<u8>) {
        let random = &mut self.random;
        let past = MOST as u32 + 1;
        let words = [0, 1, 2, 9, past, past.wrapping_neg(), u32::MAX];
        let vertices = u32::from_le_bytes([store[12], store[13], store[14], store[15]]) as u64;
        let (place, word) = match random.below(8) {
            0 => (random.below(8), random.pick(&words)),
            1 => (5 + random.below(3), random.pick(&words)),
            2 => (8 + random.below(2 * vertices + 3), random.pick(&words)),
            3 => (3, random.pick(&[vertices as u32 + 1, 0, 4096, 4097])),
            4 => return store.truncate(random.below(store.len() as u64) as usize),
            5 => return store.truncate(random.pick(&[0, 23, 24, 43, store.len() - 1])),
            _ => {
                let at = random.below(store.len() as u64) as usize;
                store[at] = store[at].wrapping_add(random.between(1, 255) as u8);
                return;
            }
        };
        let at = 4 * place as usize;
        store[at..at + 4].copy_from_slice(&word.to_le_bytes());
    }

    /// Point numbers for so many vertices: any words, most of them small.
    pub fn numbers(&mut self, count: usize) -> Vec<u32> {
        let random = &mut self.random;
        let mut number = || match random.below(3) {
            0 => random.between(0, u32::MAX as i64) as u32,
            _ => random.below(1000) as u32,
        };
        (0..count).map(|_| number()).collect()
    }

    /// Damages a store of a path: a byte, a word that means something, or its
    /// length.
    pub fn damage(&mut self, store: &mut Vec<u8>) {
        let word = |store: &[u8], place: usize| {
            let at = 4 * place;
            u32::from_le_bytes([store[at], store[at + 1], store[at + 2], store[at + 3]])
        };
        let (vertices, edges) = (word(store, 3), word(store, 4));
        let entry = 3 + word(store, 0) as u64;
        let random = &mut self.random;
        let (place, word) = match random.below(14) {
            0..4 => {
                let at = random.below(store.len() as u64) as usize;
                store[at] = store[at].wrapping_add(random.between(1, 255) as u8);
                return;
            }
            4 => return store.truncate(random.below(store.len() as u64) as usize),
            5 => return store.truncate(random.pick(&[0, 20, 23, store.len() - 1])),
            6 => (0, random.pick(&[0, 1, 2, 3, 257, u32::MAX])),
            7 => (1, random.pick(&[1, 256, 1 << 31])),
            8 => (2, random.pick(&[0, 1, 2, 8, 9, 257, u32::MAX])),
            9 => (3, random.pick(&[vertices + 1, 0, 4096, 4097, u32::MAX])),
            10 => (4, random.pick(&[edges + 1, edges / 2, 0, u32::MAX])),
            11 | 12 if vertices > 0 => {
                let place = 5 + entry * random.below(vertices as u64) + random.below(3);
                let past = MOST as u32 + 1;
                let words = [past, past.wrapping_neg(), 1 << 31, u32::MAX, 0, 1];
                (place as usize, random.pick(&words))
            }
            _ => {
                let place = 5 + random.below((store.len() / 4 - 5) as u64);
                (place as usize, random.below(20) as u32)
            }
        };
        // a store that is cut already may end before that place
        if let Some(bytes) = store.get_mut(4 * place..4 * place + 4) {
            bytes.copy_from_slice(&word.to_le_bytes());
        }
    }

    /// Spoils a store of a path behind its vertices: a count, two that make up for
    /// each other, the total, its edges, or its end.
    pub fn spoil(&mut self, store: &mut Vec<u8>) {
        let word = |store: &[u8], place: usize| {
            let at = 4 * place;
            u32::from_le_bytes([store[at], store[at + 1], store[at + 2], store[at + 3]])
        };
        let vertices = word(store, 3) as usize;
        let entry = 3 + word(store, 0) as usize;
        let front = 24 + 4 * entry * vertices;
        if store.len() < front {
            return;
        }
        let count = |body: usize| match body {
            _ if body < vertices => 5 + entry * (body + 1) - 1,
            _ => 5 + entry * vertices,
        };
        let random = &mut self.random;
        let body = random.below(vertices as u64 + 1) as usize;
        let put = |store: &mut Vec<u8>, place: usize, word: u32| {
            store[4 * place..4 * place + 4].copy_from_slice(&word.to_le_bytes());
        };
        match random.below(12) {
            0..3 => {
                let old = word(store, count(body));
                let few = random.below(30) as u32;
                let words = [
                    old ^ 1,
                    old.wrapping_add(1),
                    old / 2,
                    0,
                    few,
                    u32::MAX,
                    1 << 28,
                ];
                put(store, count(body), random.pick(&words));
            }
            3 if body < vertices => {
                let [old, next] = [body, body + 1].map(|body| word(store, count(body)));
                let moved = random.below(u64::from(old) + 1) as u32;
                put(store, count(body), old - moved);
                put(store, count(body + 1), next.wrapping_add(moved));
            }
            4 => put(store, 4, random.pick(&[0, 1, 7, 1 << 28, u32::MAX])),
            5 => store.truncate(front + random.below((store.len() - front) as u64 + 1) as usize),
            6 => store.truncate(random.below(store.len() as u64 + 1) as usize),
            7 => store[front..].fill(0),
            _ if store.len() > front => {
                let at = front + random.below((store.len() - front) as u64) as usize;
                store[at] = store[at].wrapping_add(random.between(1, 255) as u8);
            }
            _ => {}
        }
    }
}
