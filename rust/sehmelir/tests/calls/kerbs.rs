//! Document 02, request 3: kerbs by hand, and each call of the archive beside
//! `plain`'s: the same answer, and the same lent memory afterwards.

use crate::beside_plain::{cases, reach, read, replace, Tally};
use crate::lent::{self, room, StyleWords};
use crate::making::Maker;
use plain::calls::Reply;
use plain::kerbs::Style as PlainStyle;
use plain::numbers::Point;
use sehmelir::{draw_kerb, kerb, kerb_bytes, Form, Join, Refusal, Style};

/// Most vertices of a generated kerb.
const VERTICES: u64 = 12;

const STYLE: Style = Style {
    radius: 5,
    join: Join::Bevel,
    closed: false,
};

/// A reply of `plain` as `lent` gives it.
fn answer(reply: Reply) -> Result<usize, (u32, u64)> {
    match reply.reply {
        0 => Ok(reply.number as usize),
        other => Err((other, reply.number)),
    }
}

fn draw(points: &[i32], grade: u32, style: StyleWords, length: usize) -> Reply {
    let mut expected = room(length);
    let (answered, out) = lent::draw_kerb(points, grade, style, &expected);
    let reply = plain::calls::draw_kerb(points, grade, style, &mut expected);
    let case = || format!("draw {points:?} {grade} {style:?} {length}");
    assert_eq!(answered, answer(reply), "{}", case());
    assert!(out == expected, "{}", case());
    reply
}

fn keep(points: &[i32], grade: u32, style: StyleWords, length: usize) -> Reply {
    let mut expected = room(length);
    let (answered, out) = lent::keep_kerb(points, grade, style, &expected);
    let reply = plain::calls::keep_kerb(points, grade, style, &mut expected);
    let case = || format!("keep {points:?} {grade} {style:?} {length}");
    assert_eq!(answered, answer(reply), "{}", case());
    assert!(out == expected, "{}", case());
    reply
}

/// How many edges or bytes a call needs, 0 if it is refused anyhow.
fn needed(reply: Reply) -> usize {
    match reply.reply {
        5 => reply.number as usize,
        _ => 0,
    }
}

/// The sound outline of a kerb within the limits, also of one without edges.
pub fn outline(points: &[[i32; 2]], grade: u32, style: StyleWords) -> Vec<u8> {
    let point = |&[x, y]: &[i32; 2]| Point::new(x as i64, y as i64);
    let points: Vec<Point> = points.iter().map(point).collect();
    plain::outline::kerb_bytes(&points, grade, PlainStyle::of(style).unwrap())
}

#[test]
fn by_hand() {
    let round = Style {
        join: Join::Round,
        ..STYLE
    };
    let corner = [0, 0, 20, 0, 20, 20];
    let edges = [
        [20, 5, 0, 5],
        [0, -5, 20, -5],
        [15, 20, 15, 0],
        [25, 0, 25, 20],
        [15, 0, 20, 0],
        [20, 0, 20, 5],
        [20, -5, 22, -4],
        [22, -4, 24, -3],
        [24, -3, 25, -1],
        [25, -1, 25, 0],
        [0, 5, 0, -5],
        [25, 20, 15, 20],
    ];
    let mut out = [7; 50];
    assert_eq!(draw_kerb(&corner, 2, round, &mut out), Ok(12));
    assert_eq!(out[..48], *edges.as_flattened());
    let words = [1, 1, 2, 3, 12, 5, 1, 0, 0, 0, 20, 0, 20, 20, 4, 6, 2];
    let words = words.iter().chain(edges.as_flattened());
    let bytes: Vec<u8> = words.flat_map(|word: &i32| word.to_le_bytes()).collect();
    assert_eq!(kerb(&corner, 2, round).unwrap(), bytes);
    assert_eq!(bytes.len(), kerb_bytes(3, 12));
    let mut out = [7; 7];
    let kept = sehmelir::read(&bytes, &mut out).unwrap();
    assert_eq!((kept.vertices, kept.grade), (3, 2));
    assert_eq!(kept.form, Form::Kerb(round));
    assert_eq!(out, [0, 0, 20, 0, 20, 20, 7]);
    assert_eq!(kept.form.numbers(), 2);
}

/// Each refusal, with as many of the later ones as can hold beside it.
#[test]
fn refusals() {
    let far = vec![268435457; 2 * 4097];
    let line: &[i32] = &[0, 0, 20, 0];
    let table: [(&[i32], u32, StyleWords, (u32, u64)); 20] = [
        (&[7], 1, [5, 0, 0], (1, 1)),
        (&far, 1, [u32::MAX; 3], (3, 1)),
        (line, 1, [5, 0, 0], (3, 1)),
        (&far[..8193], 9, [u32::MAX; 3], (1, 8193)),
        (&far, 9, [u32::MAX; 3], (3, 9)),
        (&far, 0, [u32::MAX; 3], (3, 0)),
        (&far, 8, [268435457, 2, 2], (11, 5)),
        (&far, 8, [u32::MAX, 0, 0], (11, 5)),
        (&far, 8, [1, 2, 2], (11, 6)),
        (&far, 8, [1, 257, 0], (11, 6)),
        (&far, 8, [1, 1, 2], (11, 7)),
        (&far, 8, [1, 1, u32::MAX], (11, 7)),
        (&far, 8, [1, 1, 1], (2, 4097)),
        (&far[..8192], 8, [1, 1, 1], (4, 0)),
        (&[0, 0, 0, -268435457], 2, [1, 0, 0], (4, 1)),
        (line, 2, [0, 0, 0], (18, 2)),
        (line, 2, [1, 1, 1], (18, 2)),
        (&[3, 4, 3, 4, 3, 4], 2, [5, 1, 1], (18, 3)),
        (&[3, 4], 2, [5, 0, 0], (18, 1)),
        (&[0; 8192], 2, [5, 0, 1], (18, 4096)),
    ];
    for (points, grade, style, expected) in table {
        for length in [0, 1, 59, 60, 200] {
            assert_eq!(answer(draw(points, grade, style, length)), Err(expected));
            assert_eq!(answer(keep(points, grade, style, length)), Err(expected));
        }
    }
    assert_eq!(draw_kerb(line, 2, STYLE, &mut []), Err(Refusal::NoRoom(4)));
}

#[test]
fn draws() {
    let (mut maker, mut tally) = (Maker::new(21), Tally::default());
    for _ in 0..cases() {
        let ((points, style), grade) = (maker.lent_kerb(VERTICES), maker.lent_grade());
        let edges = needed(plain::calls::draw_kerb(&points, grade, style, &mut []));
        tally.count(draw(&points, grade, style, maker.room(4 * edges)));
    }
    tally.assert_just(&[0, 1, 2, 3, 4, 5, 11, 18]);
}

#[test]
fn keeps() {
    let (mut maker, mut tally) = (Maker::new(22), Tally::default());
    for _ in 0..cases() {
        let ((points, style), grade) = (maker.lent_kerb(VERTICES), maker.lent_grade());
        let reply = plain::calls::keep_kerb(&points, grade, style, &mut []);
        let bytes = match reply.reply {
            18 => kerb_bytes(points.len() / 2, 0),
            _ => needed(reply),
        };
        tally.count(keep(&points, grade, style, maker.room(bytes)));
    }
    tally.assert_just(&[0, 1, 2, 3, 4, 5, 11, 18]);
}

/// A kept kerb, now and then damaged, now and then with bytes after it.
pub fn store(maker: &mut Maker) -> (usize, Vec<u8>) {
    let ((points, style), grade) = (maker.kerb(VERTICES), maker.stored_grade());
    let mut store = outline(&points, grade, style);
    if maker.chance(50) {
        maker.damage_kerb(&mut store);
    }
    if maker.chance(50) {
        store.extend(room::<u8>(maker.index_below(60)));
    }
    (points.len(), store)
}

#[test]
fn reads() {
    let (mut maker, mut tally) = (Maker::new(23), Tally::default());
    for _ in 0..cases() {
        let (vertices, store) = store(&mut maker);
        tally.count(read(&store, maker.room(2 * vertices)));
    }
    tally.assert_just(&[0, 2, 3, 4, 5, 6, 7, 8, 11]);
}

/// A kerb has no vertex that is replaced, and none that reaches.
#[test]
fn replaces_none() {
    let (mut maker, mut tally) = (Maker::new(24), Tally::default());
    for _ in 0..cases() {
        let (vertices, store) = store(&mut maker);
        let (index, vertex) = (maker.index(vertices), maker.replacement(None));
        let reply = replace(&store, index, vertex).0;
        let reached = reach(&store, index);
        // of a kerb whose kind is damaged both may be done, as of a path
        if store.get(4..8) == Some(&[1, 0, 0, 0]) {
            assert_eq!(reached, reply);
            tally.count(reply);
        }
    }
    tally.assert_just(&[2, 3, 4, 6, 8, 11, 12]);
}

/// Kerbs whose outlines are short enough to go over byte by byte.
const SHORT: [(&[[i32; 2]], StyleWords); 6] = [
    (&[], [5, 0, 0]),
    (&[[0, 0], [20, 0]], [5, 0, 0]),
    (&[[0, 0], [20, 0]], [5, 1, 1]),
    (&[[0, 0], [20, 0], [20, 0], [20, 20]], [5, 1, 0]),
    (&[[0, 0], [40, 0], [0, 40], [0, 0]], [4, 0, 1]),
    (&[[0, 0], [20, 0]], [1, 0, 0]),
];

#[test]
fn every_damaged_byte() {
    for (points, style) in SHORT {
        let sound = outline(points, 1, style);
        for at in 0..sound.len() {
            for change in [1, 0x10, 0x80, 0xFF] {
                let mut store = sound.clone();
                store[at] ^= change;
                read(&store, 2 * points.len());
                replace(&store, 0, [0, 0, 1]);
                reach(&store, 0);
            }
        }
    }
}

#[test]
fn every_cut_store() {
    for (points, style) in SHORT {
        let sound = outline(points, 1, style);
        for length in 0..sound.len() {
            assert_eq!(read(&sound[..length], 2 * points.len()).reply, 6);
            assert_eq!(replace(&sound[..length], 0, [0, 0, 1]).0.reply, 6);
            assert_eq!(reach(&sound[..length], 0).reply, 6);
        }
    }
}

#[test]
fn every_short_room() {
    for (points, style) in SHORT {
        let numbers = points.as_flattened();
        let sound = outline(points, 2, style);
        let edges = (sound.len() - kerb_bytes(points.len(), 0)) / 16;
        let due = |enough: bool| match enough {
            _ if edges == 0 && !points.is_empty() => 18,
            true => 0,
            false => 5,
        };
        for length in 0..4 * edges + 3 {
            let enough = length >= 4 * edges;
            assert_eq!(draw(numbers, 2, style, length).reply, due(enough));
        }
        for length in 0..sound.len() + 3 {
            let enough = length >= sound.len();
            assert_eq!(keep(numbers, 2, style, length).reply, due(enough));
        }
        for length in 0..numbers.len() + 3 {
            let enough = length >= numbers.len();
            assert_eq!(read(&sound, length).reply == 0, enough);
        }
    }
}

/// As many points as there may be, and the finest grade.
#[test]
fn long_kerbs() {
    let mut maker = Maker::new(25);
    for (count, grade) in [(4096, 2), (4096, 4), (1000, 8)] {
        let mut points = Vec::new();
        while points.len() < count {
            points.extend(maker.kerb(40).0);
        }
        points.truncate(count);
        for style in [[9, 0, 0], [300, 1, 1], [268435456, 1, 0]] {
            let numbers = points.as_flattened();
            let edges = needed(plain::calls::draw_kerb(numbers, grade, style, &mut []));
            assert_eq!(draw(numbers, grade, style, 4 * edges).reply, 0);
            assert_eq!(draw(numbers, grade, style, 4 * edges - 1).reply, 5);
            let store = outline(&points, grade, style);
            assert_eq!(keep(numbers, grade, style, store.len()).reply, 0);
            assert_eq!(read(&store, numbers.len()).reply, 0);
        }
    }
}
