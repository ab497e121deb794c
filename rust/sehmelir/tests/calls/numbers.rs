//! Document 02, request 11: point numbers, beside `plain`, and outlines of
//! edition 1 that were kept before there were any.

use crate::beside_plain::{
    cases, numbered, outline as first_edition, point_numbers, read, replace, store, Tally, VERTICES,
};
use crate::kerbs;
use crate::lent::{self, room};
use crate::making::Maker;
use plain::calls::Reply;
use sehmelir::{keep_kerb, outline, Form, Join, Refusal, Style};

#[test]
fn are_read() {
    let (mut maker, mut tally) = (Maker::new(61), Tally::default());
    for _ in 0..cases() {
        let path = maker.path(VERTICES);
        let store = store(&mut maker, &path);
        tally.count(point_numbers(&store, maker.room(path.len())));
    }
    for _ in 0..cases() / 10 {
        let (points, style) = maker.kerb(5);
        let grade = maker.stored_grade();
        let mut store = kerbs::outline(&points, grade, style);
        if maker.chance(50) {
            maker.damage_kerb(&mut store);
        }
        tally.count(point_numbers(&store, maker.room(points.len())));
    }
    tally.assert_just(&[0, 2, 3, 4, 5, 6, 7, 8, 11, 12]);
}

/// Whatever they are, replacing leaves them; those of what is kept are 0.
#[test]
fn stay() {
    let (mut maker, mut tally) = (Maker::new(62), Tally::default());
    for _ in 0..cases() {
        let (path, grade) = (maker.path(VERTICES), maker.grade());
        let numbers = maker.numbers(path.len());
        let mut store = numbered(&path, &numbers, grade);
        store.resize(store.len() + 4000, 0xEE);
        for _ in 0..3 {
            let (index, vertex) = (maker.index(path.len()), maker.vertex());
            let (reply, afterwards) = replace(&store, index, vertex);
            tally.count(reply);
            store = afterwards;
            let read = lent::numbers(&store, &room(path.len()));
            assert_eq!(read, (Ok(path.len()), numbers.clone()));
        }
        if let Ok(store) = outline(path.as_flattened(), grade) {
            let zeros = (Ok(path.len()), vec![0; path.len()]);
            assert_eq!(lent::numbers(&store, &room(path.len())), zeros);
            assert!(store == numbered(&path, &[], grade));
        }
    }
    tally.assert_just(&[0, 5, 9, 18]);
}

/// Outlines of edition 1 as they were kept before edition 2 was there.
const ONCE: &str = include_str!("../../../../tests/editions/edition-1.txt");

fn bytes(hex: &str) -> Vec<u8> {
    let byte = |at: usize| u8::from_str_radix(&hex[at..at + 2], 16).unwrap();
    (0..hex.len()).step_by(2).map(byte).collect()
}

/// An outline of grade 1 is converted to grade 2: the same path, of edition 1.
fn assert_converted(once: &[u8], path: &[i32]) {
    let triples: Vec<[i32; 3]> = path.as_chunks::<3>().0.to_vec();
    let new = first_edition(&triples, 2);
    let mut store = once.to_vec();
    store.resize(once.len().max(new.len()), 0xEE);
    let (answer, after) = lent::convert(&store, 2);
    assert_eq!(answer, Ok(new.len()));
    assert_eq!(after[..new.len()], new);
}

#[test]
fn of_outlines_kept_once_are_zeros() {
    let mut lines = ONCE.lines().filter(|line| !line.starts_with('#'));
    let (mut store, mut strokes, mut replaced, mut kerbs) = (Vec::new(), 0, 0, 0);
    while let (Some(head), Some(hex)) = (lines.next(), lines.next()) {
        let mut words = head.split(' ');
        let what = words.next().unwrap();
        let numbers: Vec<i32> = words.map(|word| word.parse().unwrap()).collect();
        let once = bytes(hex);
        match what {
            "stroke" => {
                let (grade, path) = (numbers[0] as u32, &numbers[1..]);
                let count = path.len() / 3;
                let reply = read(&once, path.len());
                assert_eq!((reply.number, reply.grade), (count as u64, grade));
                assert_eq!(lent::read(&once, &room(path.len())).1, path);
                let zeros = (Ok(count), vec![0; count]);
                assert_eq!(lent::numbers(&once, &room(count)), zeros);
                // What is kept today differs in its edition and its entries alone,
                // but at grade 1 nothing is kept any more.
                if grade == 1 {
                    assert_eq!(outline(path, grade), Err(Refusal::Grade(1)));
                    assert_converted(&once, path);
                } else {
                    let now = outline(path, grade).unwrap();
                    let front = 20 + 16 * count;
                    assert_eq!((&now[..4], &now[4..20]), (&[2, 0, 0, 0][..], &once[4..20]));
                    assert_eq!(now[front + 4 * count..], once[front..]);
                }
                (store, strokes) = (once, strokes + 1);
            }
            "replace" => {
                let [index, x, y, radius] = numbers[..] else {
                    panic!("{head}")
                };
                let old = store.len();
                store.resize(old.max(once.len()), 0xEE);
                let (reply, after) = replace(&store, index as usize, [x, y, radius]);
                replaced += 1;
                // At grade 1 nothing is replaced any more, but what was still reads.
                if store[8] == 1 {
                    assert_eq!((reply, &after), (Reply::new(3, 1), &store));
                    assert_eq!(read(&once, 64).grade, 1);
                    continue;
                }
                assert_eq!(reply, Reply::new(0, once.len() as u64));
                assert_eq!(after[..once.len()], once);
            }
            _ => {
                let (head, points) = numbers.split_at(4);
                let style = Style {
                    radius: head[1] as u32,
                    join: if head[2] == 0 {
                        Join::Bevel
                    } else {
                        Join::Round
                    },
                    closed: head[3] == 1,
                };
                let (kept, out) = lent::read(&once, &room(points.len()));
                assert_eq!(kept.unwrap().form, Form::Kerb(style));
                assert_eq!(out, points);
                let mut now = vec![0; once.len()];
                let kept = keep_kerb(points, head[0] as u32, style, &mut now);
                match head[0] {
                    1 => assert_eq!(kept, Err(Refusal::Grade(1))),
                    _ => assert_eq!((kept, now), (Ok(once.len()), once)),
                }
                kerbs += 1;
            }
        }
    }
    assert_eq!((strokes, replaced, kerbs), (32, 31, 8));
}
