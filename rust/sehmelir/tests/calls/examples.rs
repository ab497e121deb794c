//! Document 01, "Marked examples, grade 1", which document 02's request 13 leaves
//! for reading, and the same paths at grade 2.

use crate::beside_plain::{numbered, outline as once};
use crate::lent::{draw, keep, list, reach, read, replace, room};
use plain::chains::bodies;
use plain::contacts::Vertex;
use sehmelir::{edges, outline, outline_bytes, Form, Kept, Refusal};

/// A path, and how many edges each vertex and the closing have.
type Example = (&'static [[i32; 3]], &'static [usize]);

const EXAMPLES: [Example; 11] = [
    (&[], &[0]),
    (&[[0, 0, 10]], &[0, 8]),
    (&[[0, 0, 1]], &[0, 0]),
    (&[[0, 0, 2]], &[0, 8]),
    (&[[0, 0, 5], [20, 0, 5]], &[0, 6, 4]),
    (&[[0, 0, 5], [20, 0, 5], [40, 0, 5]], &[0, 6, 10, 4]),
    (&[[0, 0, 10], [3, 0, 2], [6, 0, 10]], &[0, 8, 0, 8]),
    (&[[0, 0, 10], [3, 0, 2]], &[0, 8, 8]),
    (&[[0, 0, 5], [3, 4, 0]], &[0, 8, 0]),
    (&[[0, 0, 1], [20, 0, 1]], &[0, 0, 0]),
    (&[[268435456, 0, 10]], &[0, 8]),
];

/// Example 2.
const CIRCLE: [[i32; 4]; 8] = [
    [10, 0, 6, 8],
    [6, 8, -3, 10],
    [-3, 10, -9, 4],
    [-9, 4, -10, 0],
    [-10, 0, -6, -8],
    [-6, -8, 3, -10],
    [3, -10, 9, -4],
    [9, -4, 10, 0],
];

/// Example 5.
const SECTION: [[i32; 4]; 10] = [
    [20, 5, 0, 5],
    [0, -5, 20, -5],
    [0, 5, -4, 3],
    [-4, 3, -5, -1],
    [-5, -1, -2, -5],
    [-2, -5, 0, -5],
    [20, -5, 24, -3],
    [24, -3, 25, 1],
    [25, 1, 22, 5],
    [22, 5, 20, 5],
];

/// Words as the bytes of a store.
fn bytes(words: &[i32]) -> Vec<u8> {
    words.iter().flat_map(|word| word.to_le_bytes()).collect()
}

/// The edges of a path at a grade, body by body.
fn drawn(path: &[[i32; 3]], grade: u32) -> Vec<Vec<[i32; 4]>> {
    let vertex = |&[x, y, radius]: &[i32; 3]| Vertex::new(x as i64, y as i64, radius as i64);
    bodies(&path.iter().map(vertex).collect::<Vec<_>>(), grade)
}

/// The outline of an example, as it was kept once even where there are no
/// edges.
fn kept(example: Example) -> Vec<u8> {
    laid(example, 1)
}

/// The outline of an example in an edition; in the second all point numbers are
/// 0.
fn laid(example: Example, edition: i32) -> Vec<u8> {
    let (path, counts) = example;
    let edges = drawn(path, 1).concat();
    let mut words = vec![edition, 0, 1, path.len() as i32, edges.len() as i32];
    for (vertex, &count) in path.iter().zip(counts) {
        words.extend(vertex);
        words.extend((edition == 2).then_some(0));
        words.push(count as i32);
    }
    words.extend(counts.last().map(|&count| count as i32));
    words.extend(edges.as_flattened());
    bytes(&words)
}

/// What a path of so many edges is answered with: this number, or that it has
/// none.
fn accepted(path: &[[i32; 3]], edges: usize, number: usize) -> Result<usize, Refusal> {
    match path.is_empty() || edges > 0 {
        true => Ok(number),
        false => Err(Refusal::WithoutEdges(path.len())),
    }
}

#[test]
fn the_edges_are_those_of_the_document() {
    for (path, counts) in EXAMPLES {
        let bodies = drawn(path, 1);
        let told: Vec<usize> = bodies.iter().map(Vec::len).collect();
        assert_eq!(told, counts, "{path:?}");
    }
    assert_eq!(drawn(&[[0, 0, 10]], 1)[1], CIRCLE);
    assert_eq!(drawn(&[[0, 0, 5], [20, 0, 5]], 1).concat(), SECTION);
    let circle = laid(EXAMPLES[1], 2);
    assert_eq!(circle[..44], bytes(&[2, 0, 1, 1, 8, 0, 0, 10, 0, 0, 8]));
    assert_eq!(circle.len(), 172);
    assert_eq!(laid(EXAMPLES[0], 1).len(), 24);
}

#[test]
fn draw_and_keep_refuse_grade_1() {
    for (path, _) in EXAMPLES {
        let numbers = path.as_flattened();
        let refused = Err(Refusal::Grade(1));
        let (lent, store) = (room(500), room(1000));
        assert_eq!(draw(numbers, 1, &lent), (refused, lent), "{path:?}");
        assert_eq!(keep(numbers, 1, &store), (refused, store), "{path:?}");
    }
}

#[test]
fn draw_gives_the_edges() {
    for (path, _) in EXAMPLES {
        let numbers = path.as_flattened();
        let due = drawn(path, 2).concat();
        let room = room(4 * due.len() + 3);
        let (answer, out) = draw(numbers, 2, &room);
        assert_eq!(answer, accepted(path, due.len(), due.len()), "{path:?}");
        assert_eq!(out[..4 * due.len()], *due.as_flattened(), "{path:?}");
        assert_eq!(out[4 * due.len()..], room[4 * due.len()..], "{path:?}");
        assert_eq!(edges(numbers, 2).unwrap_or_default(), due, "{path:?}");
    }
}

#[test]
fn keep_gives_the_outline() {
    for (path, _) in EXAMPLES {
        let numbers = path.as_flattened();
        let expected = numbered(path, &[], 2);
        let edges = drawn(path, 2).concat().len();
        assert_eq!(expected.len(), outline_bytes(path.len(), edges));
        let room = room(expected.len() + 3);
        let (answer, out) = keep(numbers, 2, &room);
        assert_eq!(answer, accepted(path, edges, expected.len()), "{path:?}");
        if answer.is_err() {
            assert_eq!(out, room, "{path:?}");
            continue;
        }
        assert_eq!(outline(numbers, 2).unwrap(), expected, "{path:?}");
        assert_eq!(out[..expected.len()], expected, "{path:?}");
        assert_eq!(out[expected.len()..], room[expected.len()..], "{path:?}");
    }
    assert_eq!(outline(&[], 2).unwrap().len(), 24);
}

/// The listing of an example's store has as many edges as the document tells.
#[test]
fn list_takes_grade_1() {
    for ((path, counts), edition) in EXAMPLES.map(|one| [(one, 1), (one, 2)]).concat() {
        let count: usize = counts.iter().sum();
        let store = laid((path, counts), edition);
        assert_eq!(list(&store, &room(5 * count)).0, Ok(count), "{path:?}");
    }
}

#[test]
fn read_gives_the_path() {
    for ((path, counts), edition) in EXAMPLES.map(|one| [(one, 1), (one, 2)]).concat() {
        let numbers = path.as_flattened();
        let mut store = laid((path, counts), edition);
        store.extend([7; 5]);
        let room = room(numbers.len() + 2);
        let (answer, out) = read(&store, &room);
        let kept = Kept {
            vertices: path.len(),
            grade: 1,
            form: Form::Stroke,
        };
        assert_eq!(answer, Ok(kept), "{path:?}");
        assert_eq!(out[..numbers.len()], *numbers, "{path:?}");
        assert_eq!(out[numbers.len()..], room[numbers.len()..], "{path:?}");
    }
}

/// Each example's vertices, one after another, become (0,0,2): the outline is
/// that of the changed path in the same edition, zeros follow where it shrank,
/// then what was there. At grade 1 none does.
#[test]
fn replace_gives_the_outline_of_the_changed_path() {
    for ((path, counts), edition) in EXAMPLES.map(|one| [(one, 1), (one, 2)]).concat() {
        let laid_at_2 = |path: &[[i32; 3]]| match edition {
            1 => once(path, 2),
            _ => numbered(path, &[], 2),
        };
        let retired = [laid((path, counts), edition), room(500)].concat();
        let mut outline_before = laid_at_2(path);
        let mut path = path.to_vec();
        for index in 0..path.len() {
            let refused = (Err(Refusal::Grade(1)), retired.clone());
            assert_eq!(replace(&retired, index, [0, 0, 2]), refused, "{path:?}");
            let old = outline_before.len();
            let store = [&outline_before, room(500).as_slice()].concat();
            path[index] = [0, 0, 2];
            let expected = laid_at_2(&path);
            let (answer, out) = replace(&store, index, [0, 0, 2]);
            assert_eq!(answer, Ok(expected.len()), "{path:?}");
            assert_eq!(out[..expected.len()], expected, "{path:?}");
            let end = old.max(expected.len());
            assert!(out[expected.len()..end].iter().all(|&byte| byte == 0));
            assert_eq!(out[end..], store[end..], "{path:?}");
            outline_before = expected;
        }
    }
}

/// Demand 3 on the examples: every step of theirs is drawn or broken, but for
/// the one of example 10.
#[test]
fn reach_gives_the_vertex_after_the_next() {
    for (path, counts) in EXAMPLES {
        let store = kept((path, counts));
        for index in 0..path.len() {
            let expected = path.len().min(index + 2);
            assert_eq!(reach(&store, index), Ok(expected), "{path:?}");
        }
        let refused = Err(Refusal::NoVertex(path.len()));
        assert_eq!(reach(&store, path.len()), refused, "{path:?}");
    }
    let thin = [0, 0, 5, 20, 0, 1, 40, 0, 1, 60, 0, 0, 60, 0, 0, 80, 0, 1];
    let store = outline(&thin, 2).unwrap();
    let reached: Vec<usize> = (0..6).map(|index| reach(&store, index).unwrap()).collect();
    assert_eq!(reached, [4, 4, 4, 6, 6, 6]);
}

#[test]
fn the_limit_is_taken_and_one_more_is_refused() {
    assert_eq!(draw(&[268435456, 0, 10], 2, &room(56)).0, Ok(14));
    let refused = Err(Refusal::Outside(0));
    assert_eq!(draw(&[268435457, 0, 10], 2, &room(56)).0, refused);
    assert_eq!(keep(&[268435457, 0, 10], 2, &room(268)).0, refused);
}

/// Document 02, request 6: the smallest outline that was kept under the rule
/// before it and is not sound any more. Its arcs had 8 edges, now they have 6,
/// so the first byte that differs counts the edges.
#[test]
fn an_outline_of_the_rule_before_request_6_is_not_sound() {
    let words: [i32; 46] = [
        1, 0, 1, 2, 8, 0, 0, 2, 0, 0, -3, 0, 8, 0, // header, entries, closing count
        0, -3, 1, -1, -1, -1, 0, -3, 1, -1, 2, 0, 2, 0, 1, 2, // four edges
        1, 2, -1, 2, -1, 2, -2, 0, -2, 0, -2, -1, -2, -1, -1, -1, // and four
    ];
    let store: Vec<u8> = words.iter().flat_map(|word| word.to_le_bytes()).collect();
    let refused = read(&store, &room(6)).0.map(|_| ());
    assert_eq!(refused, Err(Refusal::NotSound(16)));
    let sound = once(&[[0, 0, 2], [0, -3, 0]], 1);
    assert_eq!(sound.len(), store.len() - 2 * 16);
    assert_eq!(read(&sound, &room(6)).0.map(|kept| kept.grade), Ok(1));
}
