//! Document 01, "Marked examples, grade 1" and "Easy to get wrong".

mod common;

use common::{counts, kept, numbers, vertices, Triple};
use plain::calls::{draw, keep, read, replace, Reply};
use plain::chains::bodies;
use plain::outline::{Edition, Sheet};

const CIRCLE: [[i32; 4]; 8] = [
    [10, 0, 6, 8],
    [6, 8, -3, 10],
    [-3, 10, -9, 4],
    [-9, 4, -10, 0],
    [-10, 0, -6, -8],
    [-6, -8, 3, -10],
    [3, -10, 9, -4],
    [9, -4, 10, 0],
];

/// The outline of edition 1 of a path, in words.
fn words(path: &[Triple], grade: u32) -> Vec<u32> {
    let sheet = Sheet {
        edition: Edition::First,
        path: &vertices(path),
        numbers: &[],
        grade,
    };
    sheet.words()
}

#[test]
fn example_1_no_vertices() {
    assert_eq!(kept(&[], 1).len(), 24);
    assert_eq!(counts(&[], 1), [0]);
    assert_eq!(draw(&[], 2, &mut []), Reply::new(0, 0));
}

#[test]
fn example_2_a_circle_whole() {
    let path = [(0, 0, 10)];
    let mut expected = vec![1, 0, 1, 1, 8, 0, 0, 10, 0, 8];
    expected.extend(CIRCLE.as_flattened().iter().map(|&number| number as u32));
    assert_eq!(words(&path, 1), expected);
    let bytes = kept(&path, 1);
    assert_eq!(bytes.len(), 168);
    let little: Vec<u8> = expected
        .iter()
        .flat_map(|word| word.to_le_bytes())
        .collect();
    assert_eq!(bytes, little);
}

#[test]
fn examples_3_and_4_small_circles() {
    assert_eq!(counts(&[(0, 0, 1)], 1), [0, 0]);
    assert_eq!(counts(&[(0, 0, 2)], 1), [0, 8]);
}

#[test]
fn example_5_one_section() {
    let bodies = bodies(&vertices(&[(0, 0, 5), (20, 0, 5)]), 1);
    assert_eq!(bodies[0], [[0; 4]; 0]);
    assert_eq!(
        bodies[1],
        [
            [20, 5, 0, 5],
            [0, -5, 20, -5],
            [0, 5, -4, 3],
            [-4, 3, -5, -1],
            [-5, -1, -2, -5],
            [-2, -5, 0, -5],
        ]
    );
    assert_eq!(
        bodies[2],
        [
            [20, -5, 24, -3],
            [24, -3, 25, 1],
            [25, 1, 22, 5],
            [22, 5, 20, 5],
        ]
    );
}

#[test]
fn examples_6_to_10_bodies() {
    let table: [(&[Triple], &[usize]); 5] = [
        (&[(0, 0, 5), (20, 0, 5), (40, 0, 5)], &[0, 6, 10, 4]),
        (&[(0, 0, 10), (3, 0, 2), (6, 0, 10)], &[0, 8, 0, 8]),
        (&[(0, 0, 10), (3, 0, 2)], &[0, 8, 8]),
        (&[(0, 0, 5), (3, 4, 0)], &[0, 8, 0]),
        (&[(0, 0, 1), (20, 0, 1)], &[0, 0, 0]),
    ];
    for (path, expected) in table {
        assert_eq!(counts(path, 1), expected, "{path:?}");
    }
}

#[test]
fn example_11_the_limit() {
    assert_eq!(counts(&[(268435456, 0, 10)], 1), [0, 8]);
    let taken = draw(&numbers(&[(268435456, 0, 10)]), 2, &mut [0; 56]);
    assert_eq!(taken, Reply::new(0, 14));
    let refused = draw(&numbers(&[(268435457, 0, 10)]), 2, &mut [0; 56]);
    assert_eq!(refused, Reply::new(4, 0));
}

#[test]
fn every_reply_of_draw_and_keep_in_order() {
    let far = i32::MAX;
    let big = vec![far; 3 * 4097];
    let numbers = |room: &mut [i32], path: &[i32], grade| draw(path, grade, room);
    let bytes = |room: &mut [u8], path: &[i32], grade| keep(path, grade, room);
    let table: [(&[i32], u32, Reply); 10] = [
        (&big[..12290], 9, Reply::new(1, 12290)),
        (&big, 9, Reply::new(3, 9)),
        (&big, 0, Reply::new(3, 0)),
        (&big, 1, Reply::new(3, 1)),
        (&[], 1, Reply::new(3, 1)),
        (&[0, 0, 10], 1, Reply::new(3, 1)),
        (&big, 8, Reply::new(2, 4097)),
        (&big[..12288], 8, Reply::new(4, 0)),
        (&[0, 0, 0, 1, 1, -1, 0, 0, far], 2, Reply::new(4, 1)),
        (&[7], 1, Reply::new(1, 1)),
    ];
    for (path, grade, expected) in table {
        assert_eq!(numbers(&mut [], path, grade), expected);
        assert_eq!(bytes(&mut [], path, grade), expected);
    }
    // Without edges: after every test of a vertex, before the room.
    let thin: &[i32] = &[0, 0, 1, 20, 0, 1];
    let table: [(&[i32], u32, Reply); 8] = [
        (&[0, 0, 0], 2, Reply::new(18, 1)),
        (&[0, 0, 1], 8, Reply::new(18, 1)),
        (thin, 2, Reply::new(18, 2)),
        (&vec![0; 3 * 4096], 2, Reply::new(18, 4096)),
        (&vec![0; 3 * 4097], 2, Reply::new(2, 4097)),
        (&[0, 0, 1, 20, 0, -1], 2, Reply::new(4, 1)),
        (thin, 1, Reply::new(3, 1)),
        (&thin[..5], 1, Reply::new(1, 5)),
    ];
    for (path, grade, expected) in table {
        for room in [0, 63, 64, 100] {
            assert_eq!(numbers(&mut vec![0; room], path, grade), expected);
            assert_eq!(bytes(&mut vec![0; room], path, grade), expected);
        }
    }
    assert_eq!(bytes(&mut [0; 23], &[], 2), Reply::new(5, 24));
    assert_eq!(bytes(&mut [0; 24], &[], 2), Reply::new(0, 24));
    assert_eq!(numbers(&mut [0; 55], &[0, 0, 10], 2), Reply::new(5, 14));
    assert_eq!(numbers(&mut [0; 56], &[0, 0, 10], 2), Reply::new(0, 14));
    assert_eq!(bytes(&mut [0; 267], &[0, 0, 10], 2), Reply::new(5, 268));
    assert_eq!(bytes(&mut [0; 268], &[0, 0, 10], 2), Reply::new(0, 268));
}

/// A store of these words, and `more` zero bytes after them.
fn store(words: &[u32], more: usize) -> Vec<u8> {
    let mut bytes: Vec<u8> = words.iter().flat_map(|word| word.to_le_bytes()).collect();
    bytes.resize(bytes.len() + more, 0);
    bytes
}

#[test]
fn every_reply_of_read_and_replace_in_order() {
    let far = 268435457;
    let sound = words(&[(0, 0, 2)], 1);
    let mut other = sound.clone();
    other[12] ^= 1 << 16;
    let table = [
        (store(&[], 0), Reply::new(6, 0)),
        (store(&[1, 0, 1, 0, 0], 3), Reply::new(6, 0)),
        (store(&[3, 2, 9, 4097, 0, 0], 0), Reply::new(6, 0)),
        (store(&[1, 2, 9, 4097, 0, 0], 0), Reply::new(7, 2)),
        (store(&[1, 1, 9, 4097, 0, 0], 0), Reply::new(6, 0)),
        (store(&[1, 0, 9, 4097, 0, 0], 0), Reply::new(3, 9)),
        (store(&[1, 0, 0, 4097, 0, 0], 0), Reply::new(3, 0)),
        (store(&[1, 0, 8, 4097, 0, 0], 0), Reply::new(2, 4097)),
        (
            store(&[1, 0, 8, u32::MAX, 0, 0], 0),
            Reply::new(2, 4294967295),
        ),
        (store(&[1, 0, 8, 1, 0, far, 0, 0, 0], 3), Reply::new(6, 0)),
        (
            store(&[1, 0, 8, 1, u32::MAX, 0, 0, 0, 0, 0], 0),
            Reply::new(6, 0),
        ),
        (
            store(&[1, 0, 8, 1, 0, far, 0, 0, 0, 7], 0),
            Reply::new(4, 0),
        ),
        (
            store(&[1, 0, 8, 1, 0, 0, 0, u32::MAX, 0, 7], 0),
            Reply::new(4, 0),
        ),
        (store(&[1, 0, 1, 1, 0, 0, 0, 2, 8, 0], 0), Reply::new(8, 16)),
        (store(&[1, 0, 1, 1, 0, 0, 0, 0, 7, 7], 0), Reply::new(8, 32)),
        (store(&[1, 0, 1, 0, 0, 256], 0), Reply::new(8, 21)),
        (store(&other, 5), Reply::new(8, 50)),
    ];
    for (store, expected) in table {
        let mut numbers = [77; 2];
        assert_eq!(read(&store, &mut numbers), expected);
        assert_eq!(numbers, [77; 2]);
        let mut changed = store.clone();
        assert_eq!(replace(&mut changed, 7, i32::MAX, 0, 0), expected);
        assert_eq!(changed, store);
    }
    assert_eq!(read(&store(&sound, 3), &mut [77; 2]), Reply::new(5, 1));
    let far = far as i32;
    // Grade 1: after the store's own, before all else.
    let retired = store(&sound, 3);
    for (index, vertex) in [(1, far), (0, far), (0, 0)] {
        let mut changed = retired.clone();
        assert_eq!(replace(&mut changed, index, vertex, 0, 1), Reply::new(3, 1));
        assert_eq!(changed, retired);
    }
    let store = store(&words(&[(0, 0, 2)], 2), 3);
    let mut changed = store.clone();
    assert_eq!(replace(&mut changed, 1, far, 0, 0), Reply::new(9, 1));
    assert_eq!(replace(&mut changed, 0, far, 0, 0), Reply::new(4, 0));
    assert_eq!(replace(&mut changed, 0, 0, 0, -1), Reply::new(4, 0));
    assert_eq!(replace(&mut changed, 0, 0, 0, 1), Reply::new(18, 1));
    assert_eq!(changed, store);
}

#[test]
fn an_outline_without_edges_still_reads_and_is_replaced() {
    let path = [(0, 0, 1), (20, 0, 1)];
    let store = kept(&path, 2);
    assert_eq!(store.len(), 56);
    let mut room = [7; 7];
    let read = read(&store, &mut room);
    assert_eq!((read.reply, read.number, read.grade), (0, 2, 2));
    assert_eq!(room, [0, 0, 1, 20, 0, 1, 7]);
    let mut changed = store.clone();
    assert_eq!(replace(&mut changed, 2, 0, 0, 0), Reply::new(9, 2));
    assert_eq!(replace(&mut changed, 1, 0, 0, -1), Reply::new(4, 1));
    assert_eq!(replace(&mut changed, 1, 9, 9, 0), Reply::new(18, 2));
    assert_eq!(changed, store);
    let new = kept(&[(0, 0, 1), (20, 0, 2)], 2);
    let needed = Reply::new(5, new.len() as u64);
    assert_eq!(replace(&mut changed, 1, 20, 0, 2), needed);
    changed.resize(new.len(), 0);
    assert_eq!(replace(&mut changed, 1, 20, 0, 2).reply, 0);
    assert_eq!(changed, new);
    // Back to none: not written.
    assert_eq!(replace(&mut changed, 1, 20, 0, 1), Reply::new(18, 2));
    assert_eq!(changed, new);
}

#[test]
fn a_replaced_outline_grows_into_its_room_and_shrinks_with_zeros() {
    let mut store = kept(&[(0, 0, 1)], 2);
    assert_eq!(store.len(), 40);
    assert_eq!(replace(&mut store, 0, 0, 0, 10), Reply::new(5, 264));
    assert_eq!(store, kept(&[(0, 0, 1)], 2));
    store.resize(276, 0xEE);
    assert_eq!(replace(&mut store, 0, 0, 0, 10), Reply::new(0, 264));
    assert_eq!(store[..264], kept(&[(0, 0, 10)], 2));
    assert_eq!(store[264..], [0xEE; 12]);

    let path = [(0, 0, 10), (3, 0, 2)];
    let mut store = kept(&path, 2);
    let old = store.len();
    assert_eq!(old, 24 + 16 * (2 + 26));
    store.resize(old + 12, 0xEE);
    assert_eq!(replace(&mut store, 1, 20, 0, 10), Reply::new(0, 312));
    assert_eq!(store[..312], kept(&[(0, 0, 10), (20, 0, 10)], 2));
    assert!(store[312..old].iter().all(|&byte| byte == 0));
    assert_eq!(store[old..], [0xEE; 12]);
}

#[test]
fn four_thousand_and_ninety_six_vertices_are_taken() {
    let path: Vec<Triple> = (0..4096)
        .map(|i| (i * 50, (i % 3) * 20, 10 + i % 4))
        .collect();
    let reply = draw(&numbers(&path), 2, &mut []);
    assert_eq!(reply.reply, 5);
    let mut room = vec![0; 4 * reply.number as usize];
    assert_eq!(draw(&numbers(&path), 2, &mut room).reply, 0);
}
