//! What must hold for every path, tried on many.

mod common;

use common::{
    counts, kept, numbered, numbers, random_numbers, random_path, random_scale, random_vertex,
    vertices,
};
use plain::calls::{draw, keep, reach, read, replace, Reply};
use plain::chains::{self, bodies};
use plain::contacts::{kind, Kind};
use plain::outline::LEAST_BYTES;
use plain::random::Random;

#[test]
fn draw_and_keep_hold_the_bodies() {
    let mut random = Random::new(11);
    for _ in 0..3_000 {
        let path = random_path(&mut random, 7);
        let grade = random.between(2, 8) as u32;
        let bodies = bodies(&vertices(&path), grade);
        let edges: Vec<i32> = bodies.concat().concat();
        let mut room = vec![9; edges.len() + 5];
        let drawn = draw(&numbers(&path), grade, &mut room);
        let none = edges.is_empty() && !path.is_empty();
        let without_edges = Reply::new(18, path.len() as u64);
        if none {
            assert_eq!(drawn, without_edges);
        } else {
            assert_eq!(drawn, Reply::new(0, edges.len() as u64 / 4));
        }
        assert_eq!(room[..edges.len()], edges);
        assert_eq!(room[edges.len()..], [9; 5]);

        let laid = |edition: u32| -> Vec<u8> {
            let header = [edition, 0, grade, path.len() as u32, edges.len() as u32 / 4];
            let mut words = header.to_vec();
            for (&(x, y, r), body) in path.iter().zip(&bodies) {
                words.extend([x as u32, y as u32, r as u32]);
                words.extend((edition == 2).then_some(0));
                words.push(body.len() as u32);
            }
            words.push(bodies[path.len()].len() as u32);
            words.extend(edges.iter().map(|&number| number as u32));
            words.iter().flat_map(|word| word.to_le_bytes()).collect()
        };
        assert_eq!(kept(&path, grade), laid(1));
        let bytes = laid(2);
        assert_eq!(numbered(&path, &[], grade), bytes);
        let mut room = vec![0xA5; bytes.len() + 5];
        let reply = keep(&numbers(&path), grade, &mut room);
        if none {
            assert_eq!(reply, without_edges);
            assert!(room.iter().all(|&byte| byte == 0xA5));
        } else {
            assert_eq!(reply, Reply::new(0, bytes.len() as u64));
            assert_eq!(room[..bytes.len()], bytes);
            assert_eq!(room[bytes.len()..], [0xA5; 5]);
        }
    }
}

/// A step whose larger radius is below 2 is thin or broken, and so small a
/// circle has no edges.
#[test]
fn a_path_has_edges_exactly_if_a_radius_is_2_or_more() {
    let mut random = Random::new(17);
    for _ in 0..20_000 {
        let mut path = random_path(&mut random, 7);
        if random.chance(30) {
            path.iter_mut().for_each(|vertex| vertex.2 %= 2);
        }
        if !path.is_empty() && random.chance(30) {
            let place = random.below(path.len() as u64) as usize;
            path[place].2 = 2;
        }
        let grade = random.between(1, 8) as u32;
        let edges: usize = counts(&path, grade).iter().sum();
        let wide = path.iter().any(|&(_, _, radius)| radius >= 2);
        assert_eq!(edges > 0, wide, "{path:?}");
    }
}

#[test]
fn an_outline_reads_back() {
    let mut random = Random::new(12);
    for _ in 0..3_000 {
        let path = random_path(&mut random, 7);
        let grade = random.between(1, 8) as u32;
        let points = random_numbers(&mut random, &path);
        for mut store in [kept(&path, grade), numbered(&path, &points, grade)] {
            store.extend((0..random.below(9)).map(|i| i as u8));
            let mut room = vec![9; 3 * path.len() + 4];
            let expected = Reply {
                grade,
                ..Reply::new(0, path.len() as u64)
            };
            assert_eq!(read(&store, &mut room), expected);
            assert_eq!(room[..3 * path.len()], numbers(&path));
            assert_eq!(room[3 * path.len()..], [9; 4]);
            if !path.is_empty() {
                room.truncate(3 * path.len() - 1);
                let short = read(&store, &mut room);
                assert_eq!(short, Reply::new(5, path.len() as u64));
            }
        }
    }
}

#[test]
fn replacing_equals_keeping_the_changed_path() {
    let mut random = Random::new(13);
    for _ in 0..3_000 {
        let mut path = random_path(&mut random, 7);
        if path.is_empty() {
            continue;
        }
        let grade = random.between(2, 6) as u32;
        let points = random_numbers(&mut random, &path);
        let second = random.chance(50);
        let outline = |path: &[_]| match second {
            true => numbered(path, &points, grade),
            false => kept(path, grade),
        };
        let old = outline(&path);
        let (side, radius) = random_scale(&mut random);
        let index = random.below(path.len() as u64) as usize;
        path[index] = random_vertex(&mut random, side, radius);
        let new = outline(&path);
        let (x, y, r) = path[index];

        let mut store = old.clone();
        let longest = old.len().max(new.len());
        store.resize(longest + 3, 0xEE);
        let before = store.clone();
        let reply = replace(&mut store, index, x, y, r);
        let entry = if second { 20 } else { 16 };
        if new.len() == LEAST_BYTES + entry * path.len() {
            assert_eq!(reply, Reply::new(18, path.len() as u64));
            assert_eq!(store, before);
            continue;
        }
        assert_eq!(reply, Reply::new(0, new.len() as u64));
        assert_eq!(store[..new.len()], new);
        let shrunk = new.len()..old.len().max(new.len());
        assert!(store[shrunk.clone()].iter().all(|&byte| byte == 0));
        assert!(store[shrunk.end..].iter().all(|&byte| byte == 0xEE));

        if new.len() > old.len() {
            let mut store = old.clone();
            store.resize(new.len() - 1, 0xEE);
            let before = store.clone();
            let reply = replace(&mut store, index, x, y, r);
            assert_eq!(reply, Reply::new(5, new.len() as u64));
            assert_eq!(store, before);
        }
    }
}

/// Where replacing vertex k stops to show. Bodies before k stand before it is
/// reached. Let j be the first vertex from k + 2 on whose step is not thin:
/// after j the chain goes by vertices behind k alone, so bodies after j are
/// the same. The closing body is among them, unless j is the last vertex and
/// the step before it starts at k, which may then cover it.
#[test]
fn replacing_shows_only_near_by() {
    let mut random = Random::new(14);
    let mut compared = 0;
    for _ in 0..20_000 {
        let path = random_path(&mut random, 9);
        if path.is_empty() {
            continue;
        }
        let n = path.len();
        let grade = random.between(1, 3) as u32;
        let k = random.below(n as u64) as usize;
        let mut other = path.clone();
        let (side, radius) = random_scale(&mut random);
        other[k] = random_vertex(&mut random, side, radius);

        let (path, other) = (vertices(&path), vertices(&other));
        let (old, new) = (bodies(&path, grade), bodies(&other, grade));
        assert_eq!(old[..k], new[..k]);
        let kind = |j: usize| kind(path[j - 1], path[j]);
        let reach = chains::reach(&path, k);
        assert_eq!(reach, (k + 2..n).find(|&j| kind(j) != Kind::Thin));
        let Some(j) = reach else {
            continue;
        };
        compared += 1;
        assert_eq!(old[j + 1..n], new[j + 1..n]);
        if j + 1 < n || j > k + 2 || kind(j) == Kind::Broken {
            assert_eq!(old[n], new[n]);
        }
    }
    assert!(compared > 5_000);
}

/// The reach as a call: by hand, where a thin run puts it off, where a broken
/// step ends it, and where no vertex does.
#[test]
fn reach_of_a_store() {
    let (wide, thin) = ((0, 0, 9), (100, 0, 1));
    let far = |x: i32, radius: i32| (x, 0, radius);
    let table: [(&[_], usize, Reply); 11] = [
        (&[], 0, Reply::new(9, 0)),
        (&[wide], 0, Reply::new(0, 1)),
        (&[wide], 1, Reply::new(9, 1)),
        (&[wide, thin], 0, Reply::new(0, 2)),
        (&[wide, far(50, 9), far(90, 9)], 0, Reply::new(0, 2)),
        (&[wide, far(50, 9), far(90, 9)], 1, Reply::new(0, 3)),
        (&[wide, far(50, 9), far(90, 9)], 2, Reply::new(0, 3)),
        (&[wide, thin, far(200, 0), far(300, 1)], 0, Reply::new(0, 4)),
        (&[wide, thin, far(200, 0), far(300, 2)], 0, Reply::new(0, 3)),
        (&[wide, thin, far(200, 0), far(200, 0)], 0, Reply::new(0, 3)),
        (&[wide, thin, thin, far(300, 5)], 0, Reply::new(0, 2)),
    ];
    for (path, index, expected) in table {
        let mut store = kept(path, 2);
        assert_eq!(reach(&store, index), expected, "{path:?} {index}");
        let last = store.len() - 1;
        store[last] ^= 1;
        let refused = replace(&mut store, index, 0, 0, 0);
        assert_eq!(reach(&store, index), refused, "{path:?} {index}");
    }
    assert_eq!(reach(&[], 0), Reply::new(6, 0));
    let store = kept(&[wide], 1);
    assert_eq!(reach(&store, usize::MAX), Reply::new(9, u64::MAX));
}

#[test]
fn bodies_stay_below_the_measured_most() {
    let mut random = Random::new(15);
    let half_turn = [3, 6, 12, 25, 50, 100, 201, 402];
    for _ in 0..3_000 {
        let path = vertices(&random_path(&mut random, 7));
        let grade = random.between(1, 8) as u32;
        let most = 4 * half_turn[grade as usize - 1] + 8;
        for body in bodies(&path, grade) {
            assert!(body.len() <= most);
            for [ax, ay, bx, by] in body {
                assert!((ax, ay) != (bx, by));
                assert!([ax, ay, bx, by].iter().all(|c| c.abs() <= 1 << 29));
            }
        }
    }
}

#[test]
fn refusals_change_nothing() {
    let mut random = Random::new(16);
    for _ in 0..3_000 {
        let path = random_path(&mut random, 5);
        let grade = random.between(2, 4) as u32;
        let lent = numbers(&path);
        let mut store = kept(&path, grade);
        let mut room = vec![7; random.below(store.len() as u64) as usize];
        let before = room.clone();
        let thin = !path.is_empty() && path.iter().all(|&(_, _, radius)| radius < 2);
        let expected = if thin { 18 } else { 5 };
        assert_eq!(keep(&lent, grade, &mut room).reply, expected);
        assert_eq!(room, before);

        let at = random.below(store.len() as u64) as usize;
        store[at] ^= 1 << random.below(8);
        let before = store.clone();
        let reply = replace(&mut store, 0, 1, 2, 3);
        if reply.reply != 0 {
            assert_eq!(store, before);
        }
        let mut room = vec![7; lent.len()];
        let reply = read(&before, &mut room);
        if reply.reply != 0 {
            assert!(room.iter().all(|&number| number == 7));
            assert_eq!(reply.grade, 0);
        }
    }
}
