//! The same call of the archive and of `plain`: the same answer, and the same
//! lent memory afterwards.

use crate::lent::{self, room};
use crate::making::{Maker, Path};
use plain::calls::Reply;
use plain::contacts::Vertex;
use sehmelir::{Form, Join, Kept, Refusal, Style};

/// How many generated cases each call is compared on: `CASES` in the
/// environment, if they should be more than some thousands.
pub fn cases() -> usize {
    std::env::var("CASES").map_or(5_000, |count| count.parse().unwrap())
}

/// Most vertices of a generated path.
pub const VERTICES: u64 = 12;

/// How often each reply was given.
#[derive(Default)]
pub struct Tally([usize; 20]);

impl Tally {
    pub fn count(&mut self, reply: Reply) {
        self.0[reply.reply as usize] += 1;
    }

    /// That the cases gave each of these replies, and more than now and then,
    /// and no other.
    pub fn assert_just(&self, replies: &[usize]) {
        for (reply, &count) in self.0.iter().enumerate() {
            let least = if replies.contains(&reply) { 10 } else { 0 };
            assert!(count >= least, "{count} of reply {reply}: {:?}", self.0);
            assert_eq!(count > 0, least > 0, "reply {reply}: {:?}", self.0);
        }
    }
}

/// What `plain` tells beside the reply of a reading, as the wrapper gives it.
pub fn kept(reply: Reply) -> Result<Kept, Refusal> {
    let [radius, join, closed] = reply.style;
    let form = match reply.kind {
        0 => Form::Stroke,
        _ => Form::Kerb(Style {
            radius,
            join: if join == 0 { Join::Bevel } else { Join::Round },
            closed: closed == 1,
        }),
    };
    answer(reply).map(|vertices| Kept {
        vertices,
        grade: reply.grade,
        form,
    })
}

/// A reply of `plain` as the wrapper gives it, but for what stands beside it.
pub fn answer(reply: Reply) -> Result<usize, Refusal> {
    let number = reply.number as usize;
    let refusal = match reply.reply {
        0 => return Ok(number),
        1 => Refusal::Uneven(number),
        2 => Refusal::TooMany(number),
        3 => Refusal::Grade(reply.number.try_into().unwrap()),
        4 => Refusal::Outside(number),
        5 => Refusal::NoRoom(number),
        6 => Refusal::NotOutline,
        7 => Refusal::Kind(reply.number.try_into().unwrap()),
        8 => Refusal::NotSound(number),
        9 => Refusal::NoVertex(number),
        10 => Refusal::NoEdge(number),
        11 => Refusal::StyleWord(reply.number.try_into().unwrap()),
        12 => Refusal::OtherKind(reply.number.try_into().unwrap()),
        13 => Refusal::NotTaken(number),
        14 => Refusal::Damaged,
        15 => Refusal::KeyThere(reply.number.try_into().unwrap()),
        16 => Refusal::KeyMissing(reply.number.try_into().unwrap()),
        17 => Refusal::TableFull(number),
        18 => Refusal::WithoutEdges(number),
        19 => Refusal::NoListRoom(number),
        other => panic!("{other} is no reply of the documents"),
    };
    Err(refusal)
}

fn draw(path: &[i32], grade: u32, length: usize) -> Reply {
    let mut expected = room(length);
    let (answered, out) = lent::draw(path, grade, &expected);
    let reply = plain::calls::draw(path, grade, &mut expected);
    assert_eq!(answered, answer(reply), "draw {path:?} {grade} {length}");
    assert!(out == expected, "draw {path:?} {grade} {length}");
    reply
}

fn keep(path: &[i32], grade: u32, length: usize) -> Reply {
    let mut expected = room(length);
    let (answered, out) = lent::keep(path, grade, &expected);
    let reply = plain::calls::keep(path, grade, &mut expected);
    assert_eq!(answered, answer(reply), "keep {path:?} {grade} {length}");
    assert!(out == expected, "keep {path:?} {grade} {length}");
    reply
}

pub fn read(store: &[u8], length: usize) -> Reply {
    let mut expected = room(length);
    let (answered, out) = lent::read(store, &expected);
    let reply = plain::calls::read(store, &mut expected);
    assert_eq!(answered, kept(reply), "read {store:?} {length}");
    assert!(out == expected, "read {store:?} {length}");
    reply
}

pub fn replace(store: &[u8], index: usize, vertex: [i32; 3]) -> (Reply, Vec<u8>) {
    let (answered, out) = lent::replace(store, index, vertex);
    let [x, y, radius] = vertex;
    let mut expected = store.to_vec();
    let reply = plain::calls::replace(&mut expected, index, x, y, radius);
    let case = || format!("replace {store:?} {index} {vertex:?}");
    assert_eq!(answered, answer(reply), "{}", case());
    assert!(out == expected, "{}", case());
    (reply, expected)
}

pub fn point_numbers(store: &[u8], length: usize) -> Reply {
    let mut expected = room(length);
    let (answered, out) = lent::numbers(store, &expected);
    let reply = plain::calls::numbers(store, &mut expected);
    assert_eq!(answered, answer(reply), "numbers {store:?} {length}");
    assert!(out == expected, "numbers {store:?} {length}");
    reply
}

pub fn reach(store: &[u8], index: usize) -> Reply {
    let reply = plain::calls::reach(store, index);
    let answered = lent::reach(store, index);
    assert_eq!(answered, answer(reply), "reach {store:?} {index}");
    reply
}

/// How many edges or bytes a call needs, 0 if it is refused anyhow.
fn needed(reply: Reply) -> usize {
    match reply.reply {
        5 => reply.number as usize,
        _ => 0,
    }
}

fn vertices(path: &[[i32; 3]]) -> Vec<Vertex> {
    let vertex = |&[x, y, radius]: &[i32; 3]| Vertex::new(x as i64, y as i64, radius as i64);
    path.iter().map(vertex).collect()
}

/// The sound outline of edition 1 of a path within the limits, as it was kept
/// once even where there are no edges.
pub fn outline(path: &[[i32; 3]], grade: u32) -> Vec<u8> {
    plain::outline::first_edition(&vertices(path), grade)
}

/// The sound outline of edition 2 of such a path with these point numbers, those
/// that are missing being 0.
pub fn numbered(path: &[[i32; 3]], numbers: &[u32], grade: u32) -> Vec<u8> {
    plain::outline::second_edition(&vertices(path), numbers, grade)
}

/// A sound outline of either edition.
pub fn of_either_edition(maker: &mut Maker, path: &[[i32; 3]], grade: u32) -> Vec<u8> {
    match maker.chance(40) {
        true => outline(path, grade),
        false => numbered(path, &maker.numbers(path.len()), grade),
    }
}

/// Whether a path of one vertex or more has no edges.
fn without_edges(path: &[[i32; 3]]) -> bool {
    !path.is_empty() && numbered(path, &[], 1).len() == sehmelir::outline_bytes(path.len(), 0)
}

#[test]
fn draws() {
    let (mut maker, mut tally) = (Maker::new(1), Tally::default());
    for _ in 0..cases() {
        let (path, grade) = (maker.lent_path(VERTICES), maker.lent_grade());
        let edges = needed(plain::calls::draw(&path, grade, &mut []));
        tally.count(draw(&path, grade, maker.room(4 * edges)));
    }
    tally.assert_just(&[0, 1, 2, 3, 4, 5, 18]);
}

#[test]
fn keeps() {
    let (mut maker, mut tally) = (Maker::new(2), Tally::default());
    for _ in 0..cases() {
        let (path, grade) = (maker.lent_path(VERTICES), maker.lent_grade());
        let reply = plain::calls::keep(&path, grade, &mut []);
        let bytes = match reply.reply {
            18 => sehmelir::outline_bytes(path.len() / 3, 0),
            _ => needed(reply),
        };
        tally.count(keep(&path, grade, maker.room(bytes)));
    }
    tally.assert_just(&[0, 1, 2, 3, 4, 5, 18]);
}

/// An outline of either edition, now and then damaged, now and then with bytes
/// after it.
pub fn store(maker: &mut Maker, path: &Path) -> Vec<u8> {
    let grade = maker.stored_grade();
    let mut store = of_either_edition(maker, path, grade);
    if maker.chance(50) {
        maker.damage(&mut store);
    }
    if maker.chance(50) {
        store.extend(room::<u8>(maker.index_below(60)));
    }
    store
}

#[test]
fn reads() {
    let (mut maker, mut tally) = (Maker::new(3), Tally::default());
    for _ in 0..cases() {
        let path = maker.path(VERTICES);
        let store = store(&mut maker, &path);
        tally.count(read(&store, maker.room(3 * path.len())));
    }
    tally.assert_just(&[0, 2, 3, 4, 5, 6, 7, 8, 11]);
}

#[test]
fn replaces() {
    let (mut maker, mut tally) = (Maker::new(4), Tally::default());
    for _ in 0..cases() {
        let path = maker.path(VERTICES);
        let mut store = store(&mut maker, &path);
        let index = maker.index(path.len());
        let vertex = maker.replacement(path.get(index));
        let [x, y, radius] = vertex;
        let reply = plain::calls::replace(&mut store.clone(), index, x, y, radius);
        let length = maker.room(needed(reply)).max(store.len());
        store.resize(length, 0xEE);
        tally.count(replace(&store, index, vertex).0);
    }
    tally.assert_just(&[0, 2, 3, 4, 5, 6, 7, 8, 9, 11, 18]);
}

#[test]
fn reaches() {
    let (mut maker, mut tally) = (Maker::new(8), Tally::default());
    for _ in 0..cases() {
        let path = maker.path(VERTICES);
        let store = store(&mut maker, &path);
        tally.count(reach(&store, maker.index(path.len())));
    }
    tally.assert_just(&[0, 2, 3, 4, 6, 7, 8, 9, 11]);
}

/// Every vertex of paths in which thin steps follow one another, so that the
/// vertex after the next is often passed over, a few vertices on reached, and
/// now and then none; and what the reach says cannot change does not.
#[test]
fn reaches_past_thin_steps() {
    let mut maker = Maker::new(10);
    let (mut next, mut beyond, mut none) = (0, 0, 0);
    for _ in 0..cases() / 5 {
        let (mut path, grade) = (maker.path(VERTICES), maker.stored_grade());
        for vertex in &mut path {
            vertex[2] = maker.pick(&[0, 1, 1, 1, vertex[2]]);
        }
        let store = of_either_edition(&mut maker, &path, grade);
        let count = path.len();
        for index in 0..count {
            let reply = reach(&store, index);
            assert_eq!(reply.reply, 0);
            let reached = reply.number as usize;
            assert!(reached <= count && (reached == count || reached >= index + 2));
            match reached {
                _ if reached == count => none += 1,
                _ if reached == index + 2 => next += 1,
                _ => beyond += 1,
            }
            assert_stays(&mut maker, &path, grade, index, reached);
        }
        for index in [count, count + 1, usize::MAX] {
            assert_eq!(reach(&store, index), Reply::new(9, index as u64));
        }
    }
    assert!(next > 500 && beyond > 500 && none > 500);
}

/// That with another vertex at an index the bodies before it stay, and those
/// after the one that it reaches to, unless that is the last.
fn assert_stays(maker: &mut Maker, path: &Path, grade: u32, index: usize, reached: usize) {
    let mut other = path.clone();
    other[index] = maker.vertex();
    let (old, new) = (bodies(path, grade), bodies(&other, grade));
    assert_eq!(old[..index], new[..index]);
    if reached + 1 < path.len() {
        assert_eq!(old[reached + 1..], new[reached + 1..]);
    }
}

fn bodies(path: &Path, grade: u32) -> Vec<Vec<[i32; 4]>> {
    plain::chains::bodies(&vertices(path), grade)
}

/// One store through many replacements: it stays the outline of the path as it
/// then is, and what stands after it stays too, but for what it grew
/// over and the zeros where it shrank.
#[test]
fn replaces_many_times_in_one_store() {
    let mut maker = Maker::new(5);
    for _ in 0..40 {
        let (mut path, grade) = (maker.path(VERTICES), maker.grade());
        let (first, numbers) = (maker.chance(50), maker.numbers(path.len()));
        let outline = |path: &Path| match first {
            true => outline(path, grade),
            false => numbered(path, &numbers, grade),
        };
        let mut store = outline(&path);
        store.resize(store.len() + 20_000, 0xEE);
        for _ in 0..30 {
            let index = maker.index(path.len());
            let vertex = maker.replacement(path.get(index));
            let (reply, afterwards) = replace(&store, index, vertex);
            store = afterwards;
            if reply.reply == 0 {
                path[index] = vertex;
            }
            let outline = outline(&path);
            assert_eq!(store[..outline.len()], outline);
            assert_eq!(read(&store, 3 * path.len()).grade, grade);
        }
    }
}

/// Paths whose outlines are short enough to go over byte by byte.
pub const SHORT: [&[[i32; 3]]; 5] = [
    &[],
    &[[0, 0, 10]],
    &[[0, 0, 2], [10, 10, 2], [20, 20, 2]],
    &[[0, 0, 5], [20, 0, 5], [10, 0, 4]],
    &[[0, 0, 1], [20, 0, 1]],
];

/// The outlines of a short path in each edition, at a grade at which they were
/// kept once and at one at which they are, and how many words a vertex has in
/// them.
pub fn both_editions(path: &[[i32; 3]]) -> [(Vec<u8>, usize); 4] {
    let numbers = [411, u32::MAX, 0];
    [
        (outline(path, 1), 4),
        (numbered(path, &numbers, 1), 5),
        (outline(path, 2), 4),
        (numbered(path, &numbers, 2), 5),
    ]
}

/// Where there are edges no changed byte makes another sound outline, but for
/// those of a point number, which may be any, and of the grade, where small arcs
/// are the same at two grades.
#[test]
fn every_damaged_byte() {
    for (path, (sound, entry)) in SHORT
        .map(|path| both_editions(path).map(|one| (path, one)))
        .concat()
    {
        let entries = 20..20 + 4 * entry * path.len();
        let has_edges = sound.len() > entries.end + 4;
        for at in 0..sound.len() {
            let number = entry == 5 && entries.contains(&at) && (at - 20) % 20 / 4 == 3;
            for change in [1, 0x10, 0x80, 0xFF] {
                let mut store = sound.clone();
                store[at] ^= change;
                let (read, _) = (read(&store, 3 * path.len()), replace(&store, 0, [0, 0, 1]));
                assert!(read.reply != 0 || !has_edges || number || at == 8);
                assert!(read.reply == 0 || !number);
                reach(&store, 0);
                point_numbers(&store, path.len());
            }
        }
    }
}

#[test]
fn every_cut_store() {
    for (path, (sound, _)) in SHORT
        .map(|path| both_editions(path).map(|one| (path, one)))
        .concat()
    {
        for length in 0..sound.len() {
            assert_eq!(read(&sound[..length], 3 * path.len()).reply, 6);
            assert_eq!(replace(&sound[..length], 0, [0, 0, 1]).0.reply, 6);
            assert_eq!(reach(&sound[..length], 0).reply, 6);
            assert_eq!(point_numbers(&sound[..length], path.len()).reply, 6);
        }
    }
}

#[test]
fn every_short_room() {
    for path in SHORT {
        let numbers = path.as_flattened();
        let edges = needed(plain::calls::draw(numbers, 2, &mut []));
        let due = |enough: bool| match enough {
            _ if without_edges(path) => 18,
            true => 0,
            false => 5,
        };
        for length in 0..4 * edges + 3 {
            let enough = length >= 4 * edges;
            assert_eq!(draw(numbers, 2, length).reply, due(enough));
        }
        let sound = numbered(path, &[], 2);
        for length in 0..sound.len() + 3 {
            let enough = length >= sound.len();
            assert_eq!(keep(numbers, 2, length).reply, due(enough));
        }
        for length in 0..numbers.len() + 3 {
            let enough = length >= numbers.len();
            assert_eq!(read(&sound, length).reply == 0, enough);
        }
    }
    let (points, grown) = (both_editions(&[[0, 0, 1]]), both_editions(&[[0, 0, 10]]));
    for ((point, _), (grown, _)) in points.into_iter().zip(grown) {
        for length in point.len()..grown.len() + 3 {
            let mut store = point.clone();
            store.resize(length, 0xEE);
            let due = match (store[8], length >= grown.len()) {
                (1, _) => 3,
                (_, true) => 0,
                (_, false) => 5,
            };
            assert_eq!(replace(&store, 0, [0, 0, 10]).0.reply, due);
        }
    }
}

/// Draw holds up to 1,024, 8,192, 32,768 or 131,072 numbers while it counts.
/// Circles about one point have 56 numbers each at grade 2, small ones 48, and at
/// grade 4 they have 208: here what is drawn before the last of them comes to some
/// circles less than draw holds, to just as many numbers, at grade 4 but for the
/// last row, and to more.
#[test]
fn as_much_as_draw_holds_and_more() {
    for (held, grade, wide, numbers) in [
        (1_024, 2, 2, 48),
        (8_192, 2, 4, 48),
        (32_768, 2, 4, 48),
        (131_072, 2, 4, 48),
        (131_072, 4, 0, 208),
    ] {
        let full = wide + (held - 56 * wide) / numbers + 1;
        let small = if grade == 2 { 2 } else { 2000 };
        for count in full - 2..=full + 2 {
            let circle = |place: usize| [0, 0, if place < wide { 20 } else { small }];
            let path: Path = (0..count).map(circle).collect();
            let needed = needed(plain::calls::draw(path.as_flattened(), grade, &mut []));
            assert_eq!(4 * needed, 56 * wide + numbers * (count - wide));
            for (length, reply) in [(4 * needed, 0), (4 * needed - 1, 5), (4 * needed + 3, 0)] {
                assert_eq!(draw(path.as_flattened(), grade, length).reply, reply);
            }
        }
    }
}

/// At grades 7 and 8, and of many vertices at 5 and 6, draw holds whole arcs in
/// a few numbers each; how much it holds goes by how many vertices there are.
/// Where circles are small most arcs stand edge by edge, which is more than
/// draw holds: the rest is counted, and drawn anew.
#[test]
fn holds_whole_arcs() {
    for (count, grade) in [
        (33, 8),
        (34, 8),
        (264, 7),
        (265, 8),
        (924, 7),
        (925, 7),
        (910, 6),
        (911, 6),
        (4_096, 5),
        (4_096, 8),
    ] {
        for radius in [2, 30, 600] {
            let vertex = |place: i32| {
                let turn = place * place % 7;
                [3 * radius * place, radius * turn, radius + turn]
            };
            let path: Path = (0..count).map(vertex).collect();
            let needed = needed(plain::calls::draw(path.as_flattened(), grade, &mut []));
            assert_eq!(draw(path.as_flattened(), grade, 4 * needed).reply, 0);
            assert_eq!(draw(path.as_flattened(), grade, 4 * needed - 1).reply, 5);
        }
    }
}

/// What finds no room is only counted, at fine grades by leaps over many
/// rotations: that comes to what is drawn.
#[test]
fn counts_by_leaps() {
    let mut maker = Maker::new(7);
    for _ in 0..cases() {
        let path = maker.path(4);
        let due = if without_edges(&path) { 18 } else { 5 };
        for grade in 5..=8 {
            assert_eq!(keep(path.as_flattened(), grade, 0).reply, due);
        }
    }
}

/// The same of paths at many scales, some of which have no edges. `PATHS` in the
/// environment is how many, if they should be more than a few.
#[test]
fn holds_whole_arcs_of_any_path() {
    let paths = std::env::var("PATHS").map_or(60, |count| count.parse().unwrap());
    let mut maker = Maker::new(9);
    for _ in 0..paths {
        let (grade, least) = maker.pick(&[(5, 1_639), (6, 911), (7, 1), (8, 1)]);
        let count = least + maker.index_below(900);
        let path = long_path(&mut maker, count);
        let needed = needed(plain::calls::draw(path.as_flattened(), grade, &mut []));
        let due = if without_edges(&path) { 18 } else { 0 };
        assert_eq!(draw(path.as_flattened(), grade, 4 * needed).reply, due);
        if needed > 0 {
            assert_eq!(draw(path.as_flattened(), grade, 4 * needed - 1).reply, 5);
        }
    }
}

/// A path of so many vertices: many short ones after one another.
fn long_path(maker: &mut Maker, count: usize) -> Path {
    let mut path = Path::new();
    while path.len() < count {
        path.extend(maker.path(40));
    }
    path.truncate(count);
    path
}

/// As many vertices as there may be, and the finest grade.
#[test]
fn long_paths() {
    let mut maker = Maker::new(6);
    for (count, grade) in [(4096, 2), (4096, 4), (300, 8), (2500, 6)] {
        let path = long_path(&mut maker, count);
        let numbers = path.as_flattened();
        let edges = needed(plain::calls::draw(numbers, grade, &mut []));
        assert_eq!(draw(numbers, grade, 4 * edges).reply, 0);
        assert_eq!(draw(numbers, grade, 4 * edges - 1).reply, 5);
        let points = maker.numbers(count);
        let mut store = numbered(&path, &points, grade);
        assert_eq!(keep(numbers, grade, store.len()).reply, 0);
        assert_eq!(point_numbers(&store, count).reply, 0);
        assert_eq!(read(&store, numbers.len()).reply, 0);
        store.resize(store.len() + 100_000, 0xEE);
        for index in [0, 1, count / 2, count - 1] {
            assert_eq!(replace(&store, index, [5, -5, 100]).0.reply, 0);
            assert_eq!(reach(&store, index).reply, 0);
        }
    }
}
