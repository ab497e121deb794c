//! Document 01, "Replies, tested in this order": every refusal of every call,
//! each with as many of the later ones as can hold beside it. No refusal
//! changes lent memory.

use crate::lent::{draw, keep, numbers as numbers_of, reach, read, replace, room, Outcome};
use sehmelir::{outline, Refusal};
use std::error::Error;
use std::fmt::Debug;

const FAR: i32 = 268435457;

/// That a call was refused so and left its room as it was.
fn assert_refused<A, T>(outcome: Outcome<A, T>, room: &[T], expected: Refusal)
where
    A: Debug + PartialEq,
    T: Debug + PartialEq,
{
    let (answer, afterwards) = outcome;
    assert_eq!(answer, Err(expected));
    assert_eq!(afterwards, room, "{expected:?}");
}

#[test]
fn of_paths() {
    let far = vec![FAR; 3 * 4097];
    let thin = [0, 0, 1, 50, 0, 1, 7];
    let table: [(&[i32], u32, Refusal); 22] = [
        (&[7], 1, Refusal::Uneven(1)),
        (&far, 1, Refusal::Grade(1)),
        (&[], 1, Refusal::Grade(1)),
        (&thin[..6], 1, Refusal::Grade(1)),
        (&far[..12290], 9, Refusal::Uneven(12290)),
        (&far, 9, Refusal::Grade(9)),
        (&far, 0, Refusal::Grade(0)),
        (&[], u32::MAX, Refusal::Grade(u32::MAX)),
        (&far, 8, Refusal::TooMany(4097)),
        (&far[..12288], 8, Refusal::Outside(0)),
        (&[0, 0, 0, 1, 1, -1, 0, 0, FAR], 2, Refusal::Outside(1)),
        (&[0, -FAR, 1], 2, Refusal::Outside(0)),
        (&[0, FAR, 1], 2, Refusal::Outside(0)),
        (&[0, 0, FAR], 2, Refusal::Outside(0)),
        (&[i32::MIN, i32::MIN, i32::MIN], 2, Refusal::Outside(0)),
        (&thin, 9, Refusal::Uneven(7)),
        (&thin[..6], 9, Refusal::Grade(9)),
        (&[0, 0, 1, 50, 0, -1], 2, Refusal::Outside(1)),
        (&thin[..6], 2, Refusal::WithoutEdges(2)),
        (&thin[..3], 8, Refusal::WithoutEdges(1)),
        (&[0, 0, 0, 1, 0, 1, 1, 0, 1], 3, Refusal::WithoutEdges(3)),
        (&[0; 3 * 4096], 2, Refusal::WithoutEdges(4096)),
    ];
    for (path, grade, expected) in table {
        for length in [0, 1, 63, 64, 200] {
            let (numbers, bytes) = (room(length), room(length));
            assert_refused(draw(path, grade, &numbers), &numbers, expected);
            assert_refused(keep(path, grade, &bytes), &bytes, expected);
        }
    }
}

/// A store of these words, and more bytes after them.
fn store(words: &[i32], more: usize) -> Vec<u8> {
    let bytes = words.iter().flat_map(|word| word.to_le_bytes());
    bytes.chain(room(more)).collect()
}

#[test]
fn of_stores() {
    let mut damaged = outline(&[0, 0, 2], 2).unwrap();
    damaged[50] ^= 1;
    let table = [
        (store(&[], 0), Refusal::NotOutline),
        (store(&[1, 0, 1, 0, 0], 3), Refusal::NotOutline),
        (store(&[3, 2, 9, 4097, 0, 0], 0), Refusal::NotOutline),
        (store(&[0, 2, 9, 4097, 0, 0], 0), Refusal::NotOutline),
        (store(&[2, 2, 9, 4097, 0, 0], 0), Refusal::Kind(2)),
        (
            store(&[2, 1, 9, 4097, 0, FAR, 2, 2], 12),
            Refusal::NotOutline,
        ),
        (store(&[2, 0, 9, 4097, 0, 0], 0), Refusal::Grade(9)),
        (store(&[2, 0, 8, 4097, 0, 0], 0), Refusal::TooMany(4097)),
        (
            store(&[2, 0, 8, 1, 0, FAR, 0, 0, 7, 0], 3),
            Refusal::NotOutline,
        ),
        (
            store(&[2, 0, 8, 1, 0, FAR, 0, 0, 7, 0, 9], 0),
            Refusal::Outside(0),
        ),
        (
            store(&[2, 0, 8, 1, 0, 0, 0, 0, -1, 7, 9], 0),
            Refusal::NotSound(36),
        ),
        (store(&[1, 2, 9, 4097, 0, 0], 0), Refusal::Kind(2)),
        (store(&[1, 1, 9, 4097, 0, 0], 19), Refusal::NotOutline),
        (store(&[1, 1, 9, 4097, 0, FAR, 2, 2], 12), Refusal::Grade(9)),
        (
            store(&[1, 1, 8, 4097, 0, FAR, 2, 2], 12),
            Refusal::StyleWord(5),
        ),
        (
            store(&[1, 1, 8, 4097, 0, 5, -1, 2], 12),
            Refusal::StyleWord(6),
        ),
        (
            store(&[1, 1, 8, 4097, 0, 5, 1, 2], 12),
            Refusal::StyleWord(7),
        ),
        (
            store(&[1, 1, 8, 4097, 0, 5, 1, 1], 12),
            Refusal::TooMany(4097),
        ),
        (
            store(&[1, 1, 8, 1, 0, 5, 1, 1, FAR, 0, 0, 0], 3),
            Refusal::NotOutline,
        ),
        (
            store(&[1, 1, 8, 1, 0, 5, 1, 1, 0, -FAR, 7, 0, 0], 0),
            Refusal::Outside(0),
        ),
        (
            store(&[1, 1, 8, 1, 0, 5, 1, 1, 0, 0, 0, 256, 0], 0),
            Refusal::NotSound(45),
        ),
        (store(&[1, -1, 9, 4097, 0, 0], 0), Refusal::Kind(u32::MAX)),
        (store(&[1, 0, 9, 4097, 0, 0], 0), Refusal::Grade(9)),
        (store(&[1, 0, 0, 4097, 0, 0], 0), Refusal::Grade(0)),
        (store(&[1, 0, -1, 4097, 0, 0], 0), Refusal::Grade(u32::MAX)),
        (store(&[1, 0, 8, 4097, 0, 0], 0), Refusal::TooMany(4097)),
        (store(&[1, 0, 8, -1, 0, 0], 0), Refusal::TooMany(4294967295)),
        (
            store(&[1, 0, 8, 1, 0, FAR, 0, 0, 0], 3),
            Refusal::NotOutline,
        ),
        (
            store(&[1, 0, 8, 1, -1, FAR, 0, 0, 0, 7], 0),
            Refusal::NotOutline,
        ),
        (
            store(&[1, 0, 8, 1, 0, FAR, 0, 0, 0, 7], 0),
            Refusal::Outside(0),
        ),
        (
            store(&[1, 0, 8, 1, 0, 0, 0, -1, 0, 7], 0),
            Refusal::Outside(0),
        ),
        (
            store(&[1, 0, 1, 1, 0, 0, 0, 2, 8, 0], 0),
            Refusal::NotSound(16),
        ),
        (
            store(&[1, 0, 1, 1, 0, 0, 0, 0, 7, 7], 0),
            Refusal::NotSound(32),
        ),
        (store(&[1, 0, 1, 0, 0, 256], 9), Refusal::NotSound(21)),
        (damaged, Refusal::NotSound(50)),
    ];
    for (store, expected) in table {
        for length in [0, 2, 200] {
            let numbers = room(length);
            assert_refused(read(&store, &numbers), &numbers, expected);
            let words = room(length);
            assert_refused(numbers_of(&store, &words), &words, expected);
        }
        assert_refused(replace(&store, 7, [FAR, 0, 0]), &store, expected);
        assert_refused(replace(&store, 0, [0, 0, 1]), &store, expected);
        for index in [0, 7] {
            assert_eq!(reach(&store, index), Err(expected));
        }
    }
}

/// An outline without edges, as they were kept once, at a grade.
fn thin_store(grade: i32) -> Vec<u8> {
    store(&[1, 0, grade, 2, 0, 0, 0, 1, 0, 50, 0, 1, 0, 0], 0)
}

/// Grade 1: after all that is wrong with a store and 12, before all else.
#[test]
fn of_replacements_at_grade_1() {
    let circle = plain::outline::first_edition(&[plain::contacts::Vertex::new(0, 0, 10)], 1);
    for store in [thin_store(1), circle] {
        let longer = [&store, room(400).as_slice()].concat();
        for (index, vertex) in [(9, [FAR, 0, 0]), (0, [FAR, 0, 0]), (0, [0; 3]), (0, [9; 3])] {
            for store in [&store, &longer] {
                let refused = Refusal::Grade(1);
                assert_refused(replace(store, index, vertex), store, refused);
            }
        }
        let kept = read(&longer, &room(6)).0.unwrap();
        assert_eq!(kept.grade, 1);
        let mut unsound = store.clone();
        let last = unsound.len() - 1;
        unsound[last] ^= 1;
        let refused = Refusal::NotSound(last);
        assert_refused(replace(&unsound, 9, [FAR, 0, 0]), &unsound, refused);
    }
}

#[test]
fn of_replacements() {
    let store = thin_store(2);
    let table = [
        (2, [FAR, 0, 0], Refusal::NoVertex(2)),
        (usize::MAX, [0, 0, 5], Refusal::NoVertex(usize::MAX)),
        (1, [FAR, 0, 5], Refusal::Outside(1)),
        (1, [0, -FAR, 5], Refusal::Outside(1)),
        (0, [0, 0, FAR], Refusal::Outside(0)),
        (0, [0, 0, -1], Refusal::Outside(0)),
        (0, [0, 0, i32::MIN], Refusal::Outside(0)),
        (0, [9, 9, 0], Refusal::WithoutEdges(2)),
        (1, [0, 0, 1], Refusal::WithoutEdges(2)),
    ];
    for (index, vertex, expected) in table {
        assert_refused(replace(&store, index, vertex), &store, expected);
        let longer = [&store, room(400).as_slice()].concat();
        assert_refused(replace(&longer, index, vertex), &longer, expected);
    }
    let wide = outline(&[0, 0, 1, 50, 0, 2], 2).unwrap();
    let refused = Refusal::WithoutEdges(2);
    assert_refused(replace(&wide, 1, [50, 0, 1]), &wide, refused);
    assert!(replace(&wide, 0, [50, 0, 1]).0.is_ok());
}

#[test]
fn of_reaches() {
    let store = thin_store(1);
    for index in [2, 3, 4096, 1 << 32, usize::MAX] {
        assert_eq!(reach(&store, index), Err(Refusal::NoVertex(index)));
    }
    let empty = outline(&[], 8).unwrap();
    assert_eq!(reach(&empty, 0), Err(Refusal::NoVertex(0)));
}

#[test]
fn of_rooms() {
    let circle = [0, 0, 10];
    for length in [0, 1, 55] {
        let room = room(length);
        assert_refused(draw(&circle, 2, &room), &room, Refusal::NoRoom(14));
    }
    assert_eq!(draw(&circle, 2, &room(56)).0, Ok(14));
    for length in [0, 1, 267] {
        let room = room(length);
        assert_refused(keep(&circle, 2, &room), &room, Refusal::NoRoom(268));
    }
    let (answer, store) = keep(&circle, 2, &room(268));
    assert_eq!(answer, Ok(268));
    for length in [0, 1, 2] {
        let room = room(length);
        assert_refused(read(&store, &room), &room, Refusal::NoRoom(1));
    }
    let kept = read(&store, &room(3)).0.unwrap();
    assert_eq!((kept.vertices, kept.grade), (1, 2));
    let once = self::store(&[1, 0, 2, 1, 0, 0, 0, 1, 0, 0], 0);
    let point = self::store(&[2, 0, 2, 1, 0, 0, 0, 1, 0, 0, 0], 0);
    for (point, needed) in [(&once, 264), (&point, 268)] {
        for more in [0, 1, 223] {
            let store = [point, room(more).as_slice()].concat();
            assert_refused(replace(&store, 0, circle), &store, Refusal::NoRoom(needed));
        }
    }
    let grown = [&point, room(224).as_slice()].concat();
    assert_eq!(replace(&grown, 0, circle), (Ok(268), store));
    let grown = [&once, room(224).as_slice()].concat();
    assert_eq!(replace(&grown, 0, circle).0, Ok(264));
}

#[test]
fn say_why() {
    let table = [
        (
            Refusal::Uneven(4),
            "4 numbers are no path of triples and no kerb of pairs",
        ),
        (Refusal::TooMany(4097), "4097 vertices are above 4096"),
        (Refusal::Grade(9), "grade 9 is not 2 to 8"),
        (Refusal::Outside(3), "vertex 3 is outside the limits"),
        (
            Refusal::NoRoom(8),
            "the room is too short: the result has 8 edges if drawn or listed, \
             vertices if read, imported or exported, bytes if kept, replaced, converted, added \
             or salvaged",
        ),
        (
            Refusal::NotOutline,
            "the store is too short or not of an edition that is read",
        ),
        (Refusal::Kind(2), "kind 2 is neither 0 nor 1"),
        (
            Refusal::NotSound(50),
            "the outline is not sound, first at byte 50",
        ),
        (Refusal::NoVertex(2), "the outline has no vertex 2"),
        (Refusal::NoEdge(7), "the outline has no edge 7"),
        (
            Refusal::StyleWord(5),
            "a kerb's radius is outside its range",
        ),
        (
            Refusal::OtherKind(1),
            "an outline of kind 1 is neither changed nor explained so",
        ),
        (Refusal::NotTaken(5), "the number at place 5 is not taken"),
        (Refusal::Damaged, "the chunk's table is damaged"),
        (Refusal::KeyThere(7), "key 7 is in the chunk already"),
        (Refusal::KeyMissing(7), "key 7 is not in the chunk"),
        (
            Refusal::TableFull(16),
            "all 16 entries of the chunk are in use",
        ),
        (
            Refusal::WithoutEdges(3),
            "a path of 3 vertices has no edges",
        ),
        (
            Refusal::NoListRoom(5),
            "the list has 5 entries and no room for them",
        ),
    ];
    let replies = 1..=19;
    for ((refusal, text), reply) in table.into_iter().zip(replies) {
        let error: &dyn Error = &refusal;
        assert_eq!(error.to_string(), text);
        assert_eq!(refusal.reply(), reply);
    }
}
