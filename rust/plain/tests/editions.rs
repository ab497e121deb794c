//! Document 02, request 11: point numbers, and both editions side by side.

mod common;

use common::{kept, numbered, numbers, random_numbers, random_path, vertices, Triple};
use plain::calls::{self, keep, keep_kerb, keep_records, reach, read, replace, Record, Reply};
use plain::kerbs::Style;
use plain::numbers::Point;
use plain::outline::{first_edition, kerb_bytes};
use plain::random::Random;
use plain::reasons::{explain, list};

/// The point numbers of a store, in room for them and two more.
fn point_numbers(store: &[u8], count: usize) -> (Reply, Vec<u32>) {
    let mut room = vec![9; count + 2];
    let reply = calls::numbers(store, &mut room);
    assert_eq!(room[count..], [9; 2]);
    room.truncate(count);
    (reply, room)
}

/// A path as records with these point numbers.
fn records(path: &[Triple], points: &[u32]) -> Vec<Record> {
    let record = |(&(x, y, radius), &number): (&Triple, &u32)| Record {
        x,
        y,
        radius,
        number,
    };
    path.iter().zip(points).map(record).collect()
}

/// A store with another first word.
fn of_edition(store: &[u8], word: u32) -> Vec<u8> {
    let mut store = store.to_vec();
    store[..4].copy_from_slice(&word.to_le_bytes());
    store
}

/// A kept kerb.
fn kerb() -> Vec<u8> {
    let style = Style::of([5, 1, 0]).unwrap();
    kerb_bytes(&[Point::new(0, 0), Point::new(20, 0)], 1, style)
}

#[test]
fn edition_2_whole() {
    let store = numbered(&[(0, 0, 1), (-1, 2, 0)], &[411, u32::MAX], 3);
    let words: [u32; 16] = [
        2,
        0,
        3,
        2,
        0,
        0,
        0,
        1,
        411,
        0,
        u32::MAX,
        2,
        0,
        u32::MAX,
        0,
        0,
    ];
    let bytes: Vec<u8> = words.iter().flat_map(|word| word.to_le_bytes()).collect();
    assert_eq!(store, bytes);
    let mut room = [7; 7];
    let reply = read(&store, &mut room);
    assert_eq!((reply.reply, reply.number, reply.grade), (0, 2, 3));
    assert_eq!(room, [0, 0, 1, -1, 2, 0, 7]);
    let due = (Reply::new(0, 2), vec![411, u32::MAX]);
    assert_eq!(point_numbers(&store, 2), due);
}

#[test]
fn keep_writes_edition_2_with_the_numbers_of_records_else_zeros() {
    let mut random = Random::new(21);
    for _ in 0..3_000 {
        let path = random_path(&mut random, 7);
        let grade = random.between(2, 8) as u32;
        let points = random_numbers(&mut random, &path);
        let thin = !path.is_empty() && path.iter().all(|&(_, _, radius)| radius < 2);
        for (zeros, due) in [
            (true, numbered(&path, &[], grade)),
            (false, numbered(&path, &points, grade)),
        ] {
            for room in [due.len() - 1, due.len(), due.len() + 3] {
                let mut room = vec![0xA5; room];
                let before = room.clone();
                let reply = match zeros {
                    true => keep(&numbers(&path), grade, &mut room),
                    false => keep_records(&records(&path, &points), grade, &mut room),
                };
                let length = due.len() as u64;
                if thin || room.len() < due.len() {
                    let refused = match thin {
                        true => Reply::new(18, path.len() as u64),
                        false => Reply::new(5, length),
                    };
                    assert_eq!(reply, refused);
                    assert_eq!(room, before);
                } else {
                    assert_eq!(reply, Reply::new(0, length));
                    assert_eq!(room[..due.len()], due);
                    assert_eq!(room[due.len()..], before[due.len()..]);
                }
            }
        }
    }
}

#[test]
fn records_are_refused_as_triples_are() {
    let far = 268435457;
    let record = |x: i32, radius: i32| Record {
        x,
        y: 0,
        radius,
        number: 7,
    };
    let outside = vec![record(far, 1); 4097];
    let thin = vec![record(0, 1); 2];
    let table: [(&[Record], u32, Reply); 8] = [
        (&outside, 9, Reply::new(3, 9)),
        (&outside, 0, Reply::new(3, 0)),
        (&outside, 1, Reply::new(3, 1)),
        (&outside, 8, Reply::new(2, 4097)),
        (&outside[1..], 8, Reply::new(4, 0)),
        (&[record(0, 1), record(0, -1)], 8, Reply::new(4, 1)),
        (&thin, 8, Reply::new(18, 2)),
        (&[record(0, 10)], 2, Reply::new(5, 268)),
    ];
    for (path, grade, due) in table {
        assert_eq!(keep_records(path, grade, &mut []), due);
    }
}

/// Edition 1 gives zeros, edition 2 what stands there, whatever it is.
#[test]
fn numbers_are_given_back() {
    let mut random = Random::new(22);
    for _ in 0..2_000 {
        let path = random_path(&mut random, 6);
        let grade = random.between(1, 4) as u32;
        let points = random_numbers(&mut random, &path);
        let count = path.len();
        let done = Reply::new(0, count as u64);
        let zeros = vec![0; count];
        assert_eq!(point_numbers(&kept(&path, grade), count), (done, zeros));
        let store = numbered(&path, &points, grade);
        assert_eq!(point_numbers(&store, count), (done, points.clone()));
        if count > 0 {
            let mut room = vec![9; count - 1];
            let short = calls::numbers(&store, &mut room);
            assert_eq!(short, Reply::new(5, count as u64));
            assert!(room.iter().all(|&number| number == 9));
        }
    }
}

#[test]
fn replacing_keeps_edition_and_numbers() {
    let points = [3, 1 << 31, 0];
    let path = [(0, 0, 5), (20, 0, 5), (40, 0, 5)];
    for index in 0..3 {
        let mut changed = path;
        changed[index] = (21, 9, 3);
        for (old, new) in [
            (kept(&path, 2), kept(&changed, 2)),
            (numbered(&path, &points, 2), numbered(&changed, &points, 2)),
        ] {
            let mut store = old.clone();
            store.resize(old.len().max(new.len()), 0xEE);
            let reply = replace(&mut store, index, 21, 9, 3);
            assert_eq!(reply, Reply::new(0, new.len() as u64));
            assert_eq!(store[..new.len()], new);
        }
    }
}

/// "An unknown kind with edition 2 is 7, kind 1 with edition 2 is 6 after it",
/// and an unknown edition is 6 before both.
#[test]
fn the_rows_of_a_store_in_order() {
    let store =
        |words: &[u32]| -> Vec<u8> { words.iter().flat_map(|word| word.to_le_bytes()).collect() };
    let far = 268435457;
    let table = [
        (store(&[2, 0, 1, 0, 0]), Reply::new(6, 0)),
        (store(&[0, 2, 9, 4097, 0, 0]), Reply::new(6, 0)),
        (store(&[3, 2, 9, 4097, 0, 0]), Reply::new(6, 0)),
        (store(&[2, 2, 9, 4097, 0, 0]), Reply::new(7, 2)),
        (store(&[2, 1, 9, 4097, 0, 0]), Reply::new(6, 0)),
        (of_edition(&kerb(), 2), Reply::new(6, 0)),
        (of_edition(&kerb(), 3), Reply::new(6, 0)),
        (store(&[2, 0, 9, 4097, 0, 0]), Reply::new(3, 9)),
        (store(&[2, 0, 8, 4097, 0, 0]), Reply::new(2, 4097)),
        // A whole outline of edition 1 is a word too short for edition 2.
        (store(&[2, 0, 8, 1, 0, far, 0, 0, 0, 0]), Reply::new(6, 0)),
        (
            store(&[2, 0, 8, 1, 0, far, 0, 0, 0, 0, 7]),
            Reply::new(4, 0),
        ),
        (store(&[2, 0, 8, 1, 0, 0, 0, 0, 5, 7, 7]), Reply::new(8, 36)),
        (store(&[2, 0, 8, 1, 0, 0, 0, 0, 5, 0, 7]), Reply::new(8, 40)),
        // The point number of edition 2 is no count of edition 1.
        (store(&[1, 0, 8, 1, 0, 0, 0, 0, 5, 0, 0]), Reply::new(8, 32)),
    ];
    for (store, due) in table {
        assert_eq!(read(&store, &mut [0; 3]), due, "{store:?}");
        assert_eq!(calls::numbers(&store, &mut []), due);
        assert_eq!(replace(&mut store.clone(), 7, i32::MAX, 0, 0), due);
        assert_eq!(reach(&store, 7), due);
        assert_eq!(explain(&store, 7).0, due);
        assert_eq!(list(&store, &mut []), due);
    }
    let kerb = kerb();
    assert_eq!(calls::numbers(&kerb, &mut []), Reply::new(12, 1));
    let store = numbered(&[(0, 0, 1)], &[9], 1);
    assert_eq!(calls::numbers(&store, &mut []), Reply::new(5, 1));
}

/// Each byte of a small outline of each edition damaged: only a point number is
/// any word.
#[test]
fn damage_at_every_byte() {
    let path = [(0, 0, 5), (20, 0, 5)];
    let points = [411, u32::MAX];
    for (sound, entry) in [(kept(&path, 1), 4), (numbered(&path, &points, 1), 5)] {
        let number = |at: usize| {
            entry == 5 && (20..20 + 4 * entry * path.len()).contains(&at) && (at / 4 - 5) % 5 == 3
        };
        for at in 0..sound.len() {
            for value in [1, 0x80, 0xFF] {
                let mut store = sound.clone();
                store[at] = store[at].wrapping_add(value);
                let before = store.clone();
                let reply = read(&store, &mut [0; 6]);
                let numbers = point_numbers(&store, 2);
                if number(at) {
                    assert_eq!(reply.reply, 0, "byte {at}");
                    let due = if at < 40 { points[1] } else { points[0] };
                    assert!(numbers.1.contains(&due));
                    assert_ne!(numbers.1, points);
                } else {
                    assert_ne!(reply.reply, 0, "byte {at}");
                    assert_eq!(numbers, (reply, vec![9; 2]));
                    assert_eq!(replace(&mut store, 0, 0, 0, 5), reply);
                    assert_eq!(store, before);
                }
            }
        }
    }
}

/// Edges and reasons go by the path, whatever its numbers and edition.
#[test]
fn explaining_and_reaching_are_the_same_for_both_editions() {
    let mut random = Random::new(23);
    for _ in 0..500 {
        let path = random_path(&mut random, 6);
        let grade = random.between(1, 3) as u32;
        let points = random_numbers(&mut random, &path);
        let (old, new) = (kept(&path, grade), numbered(&path, &points, grade));
        let mut rooms = [vec![0; 3000], vec![0; 3000]];
        let [first, second] = &mut rooms;
        assert_eq!(list(&old, first), list(&new, second));
        assert_eq!(rooms[0], rooms[1]);
        for index in 0..path.len() + 1 {
            assert_eq!(reach(&old, index), reach(&new, index));
            assert_eq!(explain(&old, index), explain(&new, index));
        }
        // Bodies are the same bytes.
        let front = 24 + 16 * path.len();
        assert_eq!(old[front..], new[front + 4 * path.len()..]);
    }
}

/// Outlines of edition 1 as they were kept before edition 2 was there.
const ONCE: &str = include_str!("../../../tests/editions/edition-1.txt");

fn bytes(hex: &str) -> Vec<u8> {
    let byte = |at: usize| u8::from_str_radix(&hex[at..at + 2], 16).unwrap();
    (0..hex.len()).step_by(2).map(byte).collect()
}

#[test]
fn outlines_kept_once_read_replace_and_compare_as_they_did() {
    let mut lines = ONCE.lines().filter(|line| !line.starts_with('#'));
    let (mut store, mut strokes, mut replaced, mut kerbs) = (Vec::new(), 0, 0, 0);
    while let (Some(head), Some(hex)) = (lines.next(), lines.next()) {
        let mut words = head.split(' ');
        let what = words.next().unwrap();
        let numbers: Vec<i32> = words.map(|word| word.parse().unwrap()).collect();
        let outline = bytes(hex);
        match what {
            "stroke" => {
                let (grade, path) = (numbers[0] as u32, &numbers[1..]);
                let triples: Vec<Triple> =
                    path.chunks_exact(3).map(|n| (n[0], n[1], n[2])).collect();
                let count = triples.len();
                assert_eq!(first_edition(&vertices(&triples), grade), outline);
                let mut room = vec![7; 3 * count];
                let reply = read(&outline, &mut room);
                let due = (0, count as u64, grade, 0);
                assert_eq!((reply.reply, reply.number, reply.grade, reply.kind), due);
                assert_eq!(room, path);
                let zeros = vec![0; count];
                let done = Reply::new(0, count as u64);
                assert_eq!(point_numbers(&outline, count), (done, zeros));
                // What is kept from the same path today differs in its entries alone,
                // but at grade 1 nothing is kept any more.
                let mut now = vec![0; outline.len() + 4 * count];
                if grade == 1 {
                    assert_eq!(keep(path, grade, &mut now), Reply::new(3, 1));
                } else {
                    assert_eq!(keep(path, grade, &mut now).reply, 0);
                    assert_eq!(now[4..20], outline[4..20]);
                    let front = 20 + 16 * count;
                    assert_eq!(now[front + 4 * count..], outline[front..]);
                }
                (store, strokes) = (outline, strokes + 1);
            }
            "replace" => {
                let [index, x, y, radius] = numbers[..] else {
                    panic!("{head}")
                };
                let old = store.len();
                store.resize(old.max(outline.len()), 0xEE);
                let before = store.clone();
                let reply = replace(&mut store, index as usize, x, y, radius);
                replaced += 1;
                // At grade 1 nothing is replaced any more, but what was still reads.
                if before[8] == 1 {
                    assert_eq!((reply, &store), (Reply::new(3, 1), &before));
                    assert_eq!(read(&outline, &mut [0; 64]).grade, 1);
                    continue;
                }
                assert_eq!(reply, Reply::new(0, outline.len() as u64));
                assert_eq!(store[..outline.len()], outline);
                assert!(store[outline.len()..].iter().all(|&byte| byte == 0));
            }
            _ => {
                let (head, points) = numbers.split_at(4);
                let style = [head[1], head[2], head[3]].map(|word| word as u32);
                let mut room = vec![7; points.len()];
                let reply = read(&outline, &mut room);
                let due = (0, head[0] as u32, 1, style);
                assert_eq!((reply.reply, reply.grade, reply.kind, reply.style), due);
                assert_eq!(room, points);
                // Kerbs stay at edition 1.
                let mut now = vec![0; outline.len()];
                let reply = keep_kerb(points, due.1, style, &mut now);
                if due.1 == 1 {
                    assert_eq!(reply, Reply::new(3, 1));
                } else {
                    assert_eq!((reply.reply, now), (0, outline));
                }
                kerbs += 1;
            }
        }
    }
    assert_eq!((strokes, replaced, kerbs), (32, 31, 8));
}
