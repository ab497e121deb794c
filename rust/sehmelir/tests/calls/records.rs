//! Draw and keep over vertex records beside draw and keep over the same numbers:
//! the same answer, and the same lent memory afterwards, but for the point numbers
//! of records, which are kept beside `plain`'s.

use crate::beside_plain::{answer, cases, VERTICES};
use crate::lent::{self, room, Outcome};
use crate::making::Maker;
use plain::calls::Record;
use sehmelir::{outline_of_records, records, replace, Refusal, Vertex};
use std::collections::BTreeMap;
use std::fmt::Debug;

/// A call over records and the call over numbers that it stands beside, in
/// every room that tells something: none, one short, exact, and more.
fn assert_same<T: Debug + Default + From<u8> + PartialEq>(
    path: &[Vertex],
    each: usize,
    over_records: impl Fn(&[Vertex], &[T]) -> Outcome<usize, T>,
    over_numbers: impl Fn(&[i32], &[T]) -> Outcome<usize, T>,
    tally: &mut BTreeMap<String, usize>,
) {
    let numbers: Vec<i32> = path
        .iter()
        .flat_map(|&vertex| <[i32; 3]>::from(vertex))
        .collect();
    let needed = match over_numbers(&numbers, &[]).0 {
        Ok(count) => count,
        Err(Refusal::NoRoom(count)) => count,
        Err(_) => 3,
    };
    let exact = each * needed;
    for length in [0, exact.saturating_sub(1), exact, exact + 9] {
        let room = room::<T>(length);
        let outcome = over_records(path, &room);
        assert_eq!(outcome, over_numbers(&numbers, &room), "{path:?}");
        let name = match outcome.0 {
            Ok(_) => "done".to_string(),
            Err(refusal) => format!("{refusal:?}")
                .split('(')
                .next()
                .unwrap()
                .to_string(),
        };
        *tally.entry(name).or_default() += 1;
    }
}

/// Keep over records through the archive and by `plain`.
fn kept(path: &[Vertex], grade: u32, room: &[u8]) -> Outcome<usize, u8> {
    let outcome = lent::keep_records(path, grade, room);
    let record = |vertex: &Vertex| Record {
        x: vertex.x,
        y: vertex.y,
        radius: vertex.radius,
        number: vertex.number,
    };
    let due: Vec<Record> = path.iter().map(record).collect();
    let mut expected = room.to_vec();
    let reply = plain::calls::keep_records(&due, grade, &mut expected);
    assert_eq!(outcome.0, answer(reply), "{path:?} {grade}");
    assert!(outcome.1 == expected, "{path:?} {grade}");
    outcome
}

/// Without its point numbers, which stand in an entry after the radius, an outline
/// is that of the numbers.
fn without_numbers((answered, mut out): Outcome<usize, u8>) -> Outcome<usize, u8> {
    if answered.is_ok() {
        let vertices = u32::from_le_bytes([out[12], out[13], out[14], out[15]]) as usize;
        for entry in out[20..20 + 20 * vertices].chunks_exact_mut(20) {
            entry[12..16].fill(0);
        }
    }
    (answered, out)
}

/// A path of records with point numbers.
fn numbered(maker: &mut Maker, path: Vec<[i32; 3]>) -> Vec<Vertex> {
    let numbers = maker.numbers(path.len());
    let vertex = |(vertex, number)| Vertex {
        number,
        ..Vertex::from(vertex)
    };
    path.into_iter().zip(numbers).map(vertex).collect()
}

/// Both calls on one path and grade.
fn assert_both(path: &[Vertex], grade: u32, tally: &mut BTreeMap<String, usize>) {
    assert_same(
        path,
        4,
        |path, room| lent::draw_records(path, grade, room),
        |path, room| lent::draw(path, grade, room),
        tally,
    );
    assert_same(
        path,
        1,
        |path, room| without_numbers(kept(path, grade, room)),
        |path, room| lent::keep(path, grade, room),
        tally,
    );
}

/// Generated paths, faults among them, at all grades and at those that there
/// are not: each reply but the first of draw's, and no other.
#[test]
fn are_as_triples() {
    let mut maker = Maker::new(4);
    let mut tally = BTreeMap::new();
    for _ in 0..cases() {
        let path = maker.path(VERTICES);
        let mut path = numbered(&mut maker, path);
        if maker.chance(20) && !path.is_empty() {
            let place = maker.index_below(path.len());
            path[place] = maker.vertex_outside().into();
        }
        if maker.chance(2) {
            let first = path.first().copied().unwrap_or_default();
            path.resize(4096 + maker.index_below(3), first);
        }
        let grade = maker.lent_grade();
        assert_both(&path, grade, &mut tally);
    }
    let given: Vec<&str> = tally.keys().map(String::as_str).collect();
    let told = [
        "Grade",
        "NoRoom",
        "Outside",
        "TooMany",
        "WithoutEdges",
        "done",
    ];
    assert_eq!(given, told);
    assert!(tally.values().all(|&count| count >= 10), "{tally:?}");
}

/// Paths of every length about where the own numbers change, and at the limits.
#[test]
fn of_every_length_are_as_triples() {
    let vertex = |place: i32| {
        let (side, radius) = (20 * (place % 7) - place % 3, 10 + place % 4);
        Vertex {
            number: u32::MAX - place as u32,
            ..Vertex::from([50 * place, side, radius])
        }
    };
    let lengths = [0..40, 505..520, 4090..4100];
    let mut tally = BTreeMap::new();
    for count in lengths.into_iter().flatten() {
        let path: Vec<Vertex> = (0..count).map(vertex).collect();
        assert_both(&path, 2 + count as u32 % 4, &mut tally);
    }
}

/// Several faults at once: the first of the tests is told.
#[test]
fn are_refused_in_order() {
    let fine = Vertex::from([0, 0, 5]);
    let outside = Vertex::from([0, 0, -1]);
    let many = vec![outside; 4097];
    let thin = Vertex::from([0, 0, 1]);
    for (path, grade, refusal) in [
        (&many[..], 0, Refusal::Grade(0)),
        (&many[..], 9, Refusal::Grade(9)),
        (&many[..], 1, Refusal::Grade(1)),
        (&[fine], 1, Refusal::Grade(1)),
        (&many[..], 8, Refusal::TooMany(4097)),
        (&[fine, outside, outside], 8, Refusal::Outside(1)),
        (&[thin, outside], 2, Refusal::Outside(1)),
        (&[thin, thin], 2, Refusal::WithoutEdges(2)),
    ] {
        assert_eq!(lent::draw_records(path, grade, &[]).0, Err(refusal));
        assert_eq!(lent::keep_records(path, grade, &[]).0, Err(refusal));
    }
    assert_eq!(lent::draw_records(&[], 2, &[]).0, Ok(0));
    assert_eq!(lent::keep_records(&[], 2, &room(24)).0, Ok(24));
}

/// What is kept from records is read back whole, and so it is after a vertex was
/// replaced, which keeps its number.
#[test]
fn are_read_back() {
    let mut maker = Maker::new(13);
    for _ in 0..cases() / 5 {
        let (path, grade) = (maker.path(VERTICES), maker.grade());
        let mut path = numbered(&mut maker, path);
        let Ok(mut store) = outline_of_records(&path, grade) else {
            continue;
        };
        assert_eq!(records(&store).as_ref(), Ok(&path));
        store.resize(store.len() + 4_000, 0xEE);
        let index = maker.index_below(path.len().max(1));
        let [x, y, radius] = maker.vertex();
        if replace(&mut store, index, x, y, radius).is_ok() {
            let number = path[index].number;
            path[index] = Vertex {
                x,
                y,
                radius,
                number,
            };
        }
        assert_eq!(records(&store), Ok(path));
    }
    assert_eq!(records(&[0; 23]), Err(Refusal::NotOutline));
}
