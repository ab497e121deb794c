//! Document 02, request 13: outlines redrawn in place.

mod common;

use common::{kept, numbered, random_numbers, random_path, vertices};
use plain::calls::{convert, keep, keep_kerb, read, Reply};
use plain::kerbs::Style;
use plain::numbers::Point;
use plain::outline::kerb_bytes;
use plain::random::Random;

/// An outline of these, converted to each grade in rooms that tell something: what
/// keeping gives in the same edition, then zeros up to its old end, then what was
/// there.
fn assert_converted(old: &[u8], due: impl Fn(u32) -> Vec<u8>) {
    for grade in 2..=8 {
        let new = due(grade);
        for room in [new.len().saturating_sub(1), new.len(), new.len() + 9] {
            let mut store = old.to_vec();
            store.resize(room.max(old.len()), 0xEE);
            let before = store.clone();
            let reply = convert(&mut store, grade);
            if store.len() < new.len() {
                assert_eq!(reply, Reply::new(5, new.len() as u64));
                assert_eq!(store, before);
                continue;
            }
            assert_eq!(reply, Reply::new(0, new.len() as u64));
            assert_eq!(store[..new.len()], new);
            let end = old.len().max(new.len());
            assert!(store[new.len()..end].iter().all(|&byte| byte == 0));
            assert_eq!(store[end..], before[end..]);
            let again = store.clone();
            assert_eq!(convert(&mut store, grade).reply, 0);
            assert_eq!(store, again);
        }
    }
}

#[test]
fn is_what_keeping_gives_in_the_same_edition() {
    let mut random = Random::new(131);
    for _ in 0..150 {
        let path = random_path(&mut random, 5);
        let points = random_numbers(&mut random, &path);
        let grade = random.between(1, 8) as u32;
        assert_converted(&kept(&path, grade), |grade| kept(&path, grade));
        let old = numbered(&path, &points, grade);
        assert_converted(&old, |grade| numbered(&path, &points, grade));
        let kerb: Vec<Point> = vertices(&path)
            .iter()
            .map(|v| Point::new(v.x, v.y))
            .collect();
        let words = [0; 3].map(|_| random.below(2) as u32);
        let style = Style::of([7 * words[0], words[1], words[2]]).unwrap();
        assert_converted(&kerb_bytes(&kerb, grade, style), |grade| {
            kerb_bytes(&kerb, grade, style)
        });
    }
}

/// A path that has no edges is converted too, though keeping would not take it.
#[test]
fn takes_what_has_no_edges() {
    let mut store = kept(&[(0, 0, 1), (20, 0, 1)], 1);
    assert_eq!(convert(&mut store, 2), Reply::new(0, 56));
    assert_eq!(store, kept(&[(0, 0, 1), (20, 0, 1)], 2));
    assert_eq!(keep(&[0, 0, 1, 20, 0, 1], 2, &mut []), Reply::new(18, 2));
    let style = Style::of([1, 0, 0]).unwrap();
    let mut store = kerb_bytes(&[Point::new(3, 4)], 1, style);
    assert_eq!(convert(&mut store, 8), Reply::new(0, 52));
    assert_eq!(keep_kerb(&[3, 4], 8, [1, 0, 0], &mut []), Reply::new(18, 1));
    let mut store = kept(&[], 1);
    assert_eq!(convert(&mut store, 5), Reply::new(0, 24));
    assert_eq!(store, kept(&[], 5));
}

#[test]
fn refusals_in_order() {
    let circle = kept(&[(0, 0, 10)], 1);
    let mut unsound = circle.clone();
    unsound[60] ^= 1;
    let mut graded = circle.clone();
    graded[8] = 9;
    let mut kind = graded.clone();
    kind[4] = 2;
    let table: [(&[u8], u32, Reply); 9] = [
        (&[], 9, Reply::new(6, 0)),
        (&kind, 9, Reply::new(7, 2)),
        (&graded, 1, Reply::new(3, 9)),
        (&circle[..167], 1, Reply::new(6, 0)),
        (&unsound, 1, Reply::new(8, 60)),
        (&circle, 0, Reply::new(3, 0)),
        (&circle, 1, Reply::new(3, 1)),
        (&circle, u32::MAX, Reply::new(3, u32::MAX as u64)),
        (&circle, 2, Reply::new(5, 264)),
    ];
    for (store, grade, due) in table {
        let mut lent = store.to_vec();
        assert_eq!(convert(&mut lent, grade), due);
        assert_eq!(lent, store);
    }
    let mut store = circle.clone();
    store.resize(264, 7);
    assert_eq!(convert(&mut store, 2), Reply::new(0, 264));
    assert_eq!(read(&store, &mut [0; 3]).grade, 2);
}
