//! Cases of the four calls: a fixed list, and as many random ones as wanted.

use super::line;
use crate::answers::needed;
use plain::calls::{draw, keep};
use plain::contacts::{Vertex, LIMIT};
use plain::kerbs::{Style, StyleWords};
use plain::numbers::Point;
use plain::outline::{self, Edition, Header};
use plain::random::Random;

const MOST: i32 = LIMIT as i32;

/// A place past every store: code 5 damages nothing there.
const NOWHERE: i64 = 1_000_000_000;

type Triple = [i32; 3];

/// The eleven marked examples, and the number the last one refuses.
const EXAMPLES: [&[Triple]; 12] = [
    &[],
    &[[0, 0, 10]],
    &[[0, 0, 1]],
    &[[0, 0, 2]],
    &[[0, 0, 5], [20, 0, 5]],
    &[[0, 0, 5], [20, 0, 5], [40, 0, 5]],
    &[[0, 0, 10], [3, 0, 2], [6, 0, 10]],
    &[[0, 0, 10], [3, 0, 2]],
    &[[0, 0, 5], [3, 4, 0]],
    &[[0, 0, 1], [20, 0, 1]],
    &[[268435456, 0, 10]],
    &[[268435457, 0, 10]],
];

/// The paths that the readings name, and what they tell of covering, of breaks
/// and of thin steps.
const READINGS: [&[Triple]; 14] = [
    &[[0, 0, 2], [10, 10, 2], [20, 20, 2]],
    &[[0, 0, 5], [20, 0, 5], [10, 0, 5]],
    &[[0, 0, 5], [20, 0, 5], [10, 0, 4]],
    &[[0, 0, 5], [20, 0, 5], [10, 0, 4], [10, 0, 4]],
    &[[0, 0, 5], [20, 0, 5], [20, 0, 5], [10, 0, 2]],
    &[[0, 0, 0], [40, 0, 20], [12, 0, 1]],
    &[[40, 0, 20], [0, 0, 0], [12, 0, 1]],
    &[[0, 0, 2], [2, 0, 1]],
    &[[0, -46, 267688968], [0, 0, 267688965], [0, 138, 267688956]],
    &[[0, 0, 5], [3, 4, 10]],
    &[[0, 0, 5], [20, 0, 1], [40, 0, 1], [60, 0, 5]],
    &[[0, 0, 5], [20, 0, 1], [40, 0, 1], [20, 0, 1], [20, 20, 5]],
    &[[0, 0, 2], [0, 2, 1], [0, 0, 0], [0, 2, 0], [1, 0, 2]],
    &[
        [0, 0, 3],
        [-463, 487, 0],
        [0, 0, 0],
        [-463, 487, 1],
        [0, 0, 100],
    ],
];

fn flat(path: &[Triple]) -> Vec<i32> {
    path.concat()
}

/// How many numbers the edges of a path take, 0 if it is refused anyhow.
fn needed_numbers(path: &[i32], grade: u32) -> usize {
    let reply = draw(path, grade, &mut []);
    if reply.reply == 5 {
        4 * reply.number as usize
    } else {
        0
    }
}

const EDITIONS: [Edition; 2] = [Edition::First, Edition::Second];

/// The outline of a path inside the limits, also of one without edges, which
/// was kept once and still reads. In edition 2 it has these point numbers.
fn numbered(edition: Edition, path: &[i32], numbers: &[u32], grade: u32) -> Vec<u8> {
    let vertex = |n: &[i32]| Vertex::new(n[0] as i64, n[1] as i64, n[2] as i64);
    let path: Vec<Vertex> = path.chunks_exact(3).map(vertex).collect();
    match edition {
        Edition::First => outline::first_edition(&path, grade),
        Edition::Second => outline::second_edition(&path, numbers, grade),
    }
}

/// The same with point numbers that all differ, small and large ones.
fn kept(edition: Edition, path: &[i32], grade: u32) -> Vec<u8> {
    let number = |k: usize| 0xFEDC_BA98u32.wrapping_mul(k as u32 + 1);
    let numbers: Vec<u32> = (0..path.len() / 3).map(number).collect();
    numbered(edition, path, &numbers, grade)
}

/// A kept kerb, also one without edges.
fn kept_kerb(points: &[[i32; 2]], grade: u32, style: StyleWords) -> Vec<u8> {
    let style = Style::of(style).expect("a style within its ranges");
    let point = |&[x, y]: &[i32; 2]| Point::new(x as i64, y as i64);
    let points: Vec<Point> = points.iter().map(point).collect();
    outline::kerb_bytes(&points, grade, style)
}

/// The bytes that a path's outline has when it is kept, whether or not its edges
/// are any; 0 if the path is refused for another reason.
fn length(path: &[i32], grade: u32) -> usize {
    match keep(path, grade, &mut []).reply {
        5 | 18 => kept(Edition::Second, path, grade).len(),
        _ => 0,
    }
}

fn case<T: Copy + Into<i64>>(head: &[i64], lent: &[T]) -> String {
    let mut numbers = head.to_vec();
    numbers.push(lent.len() as i64);
    numbers.extend(lent.iter().map(|&entry| entry.into()));
    line(&numbers)
}

fn draw_case(grade: u32, room: usize, path: &[i32]) -> String {
    case(&[1, grade as i64, room as i64], path)
}

fn keep_case(grade: u32, room: usize, path: &[i32]) -> String {
    case(&[2, grade as i64, room as i64], path)
}

fn read_case(room: usize, store: &[u8]) -> String {
    case(&[3, room as i64], store)
}

fn replace_case(index: i64, [x, y, radius]: Triple, store: &[u8]) -> String {
    case(&[4, index, x as i64, y as i64, radius as i64], store)
}

/// What code 5 does to the outline it keeps.
struct Edit {
    extra: i64,
    at: i64,
    value: i64,
    index: i64,
    vertex: Triple,
}

fn edit_case(grade: u32, edit: &Edit, path: &[i32]) -> String {
    let [x, y, radius] = edit.vertex.map(i64::from);
    let head = [5, grade as i64, edit.extra, edit.at, edit.value, edit.index];
    case(&[head.as_slice(), &[x, y, radius]].concat(), path)
}

/// The fixed list.
pub fn fixed() -> Vec<String> {
    let mut cases = Vec::new();
    for path in EXAMPLES {
        drawn(&mut cases, path, 2);
        stored(&mut cases, path, 1);
        stored(&mut cases, path, 2);
    }
    for path in READINGS {
        drawn(&mut cases, path, 2);
        stored(&mut cases, path, 1);
        stored(&mut cases, path, 2);
        let path = flat(path);
        for grade in [3, 5, 8] {
            cases.push(draw_case(grade, needed_numbers(&path, grade), &path));
            cases.push(keep_case(grade, needed(&path, grade), &path));
        }
    }
    refused_paths(&mut cases);
    paths_without_edges(&mut cases);
    retired_grade(&mut cases);
    for edition in EDITIONS {
        refused_stores(&mut cases, edition);
    }
    kept_kerbs(&mut cases);
    for edition in EDITIONS {
        changed_lengths(&mut cases, edition);
    }
    each_byte_damaged(&mut cases);
    many_vertices(&mut cases);
    cases
}

/// A path as draw and keep cases, with room exact and one short.
fn drawn(cases: &mut Vec<String>, path: &[Triple], grade: u32) {
    let path = flat(path);
    let room = needed_numbers(&path, grade);
    cases.push(draw_case(grade, room, &path));
    cases.push(draw_case(grade, room + 3, &path));
    cases.push(draw_case(grade, room.saturating_sub(1), &path));
    let room = length(&path, grade);
    cases.push(keep_case(grade, room, &path));
    cases.push(keep_case(grade, room + 3, &path));
    cases.push(keep_case(grade, room.saturating_sub(1), &path));
    let edit = Edit {
        extra: 40,
        at: NOWHERE,
        value: 0,
        index: 0,
        vertex: [1, -1, 3],
    };
    cases.push(edit_case(grade, &edit, &path));
}

/// Whether all vertices of a path lie inside the limits.
fn inside(path: &[Triple]) -> bool {
    let allowed = |&[x, y, r]: &Triple| Vertex::new(x as i64, y as i64, r as i64).allowed();
    path.iter().all(allowed)
}

/// The outlines of a path as read and replace cases; at grade 1 they are still
/// read.
fn stored(cases: &mut Vec<String>, path: &[Triple], grade: u32) {
    if !inside(path) {
        return;
    }
    let path = flat(path);
    for edition in EDITIONS {
        let store = kept(edition, &path, grade);
        cases.push(read_case(path.len(), &store));
        cases.push(read_case(path.len() + 2, &store));
        cases.push(read_case(path.len().saturating_sub(1), &store));
        let longer = [store.as_slice(), &[0xEE; 7]].concat();
        cases.push(read_case(path.len(), &longer));
        for index in 0..=path.len() / 3 {
            for vertex in [[0, 0, 0], [0, 0, 1], [2, 1, 4]] {
                cases.push(replace_case(index as i64, vertex, &store));
                cases.push(replace_case(index as i64, vertex, &longer));
            }
        }
    }
}

/// Each refusal of draw and keep, alone and before those that come later.
fn refused_paths(cases: &mut Vec<String>) {
    let (past, short) = (MOST + 1, -MOST - 1);
    let paths: [(&[i32], u32); 32] = [
        (&[0], 2),
        (&[0, 0], 2),
        (&[0, 0, 10, 7], 2),
        (&[0, 0, 10, 7, 7], 0),
        (&[past, 0, 10, 7], 9),
        (&[], 0),
        (&[], 9),
        (&[], 1),
        (&[0, 0, 10], 1),
        (&[past, 0, 10], 1),
        (&[0, 0, 10, 7], 1),
        (&[0, 0, 10], 0),
        (&[0, 0, 10], 9),
        (&[0, 0, 10], 256),
        (&[0, 0, 10], 257),
        (&[0, 0, 10], u32::MAX),
        (&[past, 0, 10], 9),
        (&[past, 0, 10], 2),
        (&[short, 0, 10], 2),
        (&[0, past, 10], 2),
        (&[0, short, 10], 2),
        (&[0, 0, past], 2),
        (&[0, 0, -1], 2),
        (&[i32::MIN, 0, 0], 2),
        (&[0, i32::MAX, 0], 2),
        (&[0, 0, i32::MAX], 2),
        (&[0, 0, i32::MIN], 2),
        (&[0, 0, 10, past, 0, 10], 2),
        (&[0, 0, 10, 50, 0, -1, past, 0, 0], 2),
        (&[MOST, -MOST, MOST], 2),
        (&[-MOST, MOST, MOST, MOST, -MOST, MOST], 2),
        (&[-MOST, MOST, 0, MOST, -MOST, MOST, 0, 0, MOST], 8),
    ];
    for (path, grade) in paths {
        cases.push(draw_case(grade, 0, path));
        cases.push(draw_case(grade, needed_numbers(path, grade) + 5, path));
        cases.push(keep_case(grade, 0, path));
        cases.push(keep_case(grade, needed(path, grade) + 5, path));
    }
}

/// Paths of radius 0 and 1, alone and with each other fault, in rooms that
/// their outlines fit and do not fit.
fn paths_without_edges(cases: &mut Vec<String>) {
    let paths: [(&[i32], u32); 17] = [
        (&[0, 0, 0], 2),
        (&[7, -7, 1], 8),
        (&[0, 0, 1, 20, 0, 1], 2),
        (&[0, 0, 0, 20, 0, 0], 2),
        (&[0, 0, 1, 1, 0, 0], 2),
        (&[0, 0, 0, 1, 0, 1], 2),
        (&[3, 4, 1, 3, 4, 1], 2),
        (&[3, 4, 1, 3, 4, 0, 3, 4, 1], 2),
        (&[-MOST, MOST, 1, MOST, -MOST, 0, 0, 0, 1], 5),
        (&[0, 0, 1, 20, 0, 2], 2),
        (&[0, 0, 0, 20, 0, -1], 2),
        (&[MOST + 1, 0, 1], 2),
        (&[0, 0, 1, 20, 0, 1], 1),
        (&[0, 0, 1, 20, 0, 1], 0),
        (&[0, 0, 1, 20, 0, 1], 9),
        (&[0, 0, 1, 20], 2),
        (&[0, 0, 1, MOST + 1, 0], 9),
    ];
    for (path, grade) in paths {
        let length = length(path, grade);
        for room in [0, length.saturating_sub(1), length, length + 5] {
            cases.push(draw_case(grade, room, path));
            cases.push(keep_case(grade, room, path));
        }
    }
    let thin = [0, 0, 1].repeat(4097);
    for path in [&thin, &thin[3..], &thin[1..]] {
        cases.push(draw_case(2, 0, path));
        cases.push(keep_case(2, 0, path));
    }
    cases.push(keep_case(2, 24 + 20 * 4096, &thin[3..]));
    // Replacements that leave none, and one that leaves some where none were.
    for path in [
        &[[0, 0, 2]][..],
        &[[0, 0, 5], [3, 4, 0]],
        &[[0, 0, 1], [9, 0, 2], [30, 0, 0]],
        &[[0, 0, 1], [9, 0, 1], [30, 0, 0]],
    ] {
        for edition in EDITIONS {
            let store = kept(edition, &flat(path), 2);
            let longer = [store.as_slice(), &[0xEE; 300]].concat();
            for index in 0..=path.len() as i64 {
                for vertex in [[0, 0, 0], [9, 0, 1], [0, 0, 2], [0, 0, -1]] {
                    cases.push(replace_case(index, vertex, &store));
                    cases.push(replace_case(index, vertex, &longer));
                }
            }
        }
    }
}

/// Outlines of grade 1, which are read and not replaced: refused after every fault
/// of the store, and before each of the index, the vertex, the edges and the
/// room.
fn retired_grade(cases: &mut Vec<String>) {
    for path in [EXAMPLES[0], EXAMPLES[1], EXAMPLES[4], EXAMPLES[9]] {
        for edition in EDITIONS {
            let store = kept(edition, &flat(path), 1);
            let mut unsound = store.clone();
            *unsound.last_mut().expect("a store has bytes") ^= 1;
            let longer = [store.as_slice(), &[0xEE; 400]].concat();
            for index in [0, path.len() as i64, i64::MAX] {
                for vertex in [[1, 2, 3], [0, 0, 1], [0, 0, -1], [MOST + 1, 0, 5]] {
                    for store in [&store, &longer, &unsound] {
                        cases.push(replace_case(index, vertex, store));
                    }
                }
            }
            cases.push(read_case(3 * path.len(), &longer));
        }
    }
}

fn bytes(words: &[u32]) -> Vec<u8> {
    words.iter().flat_map(|word| word.to_le_bytes()).collect()
}

/// A store with one of its words replaced.
fn with_word(store: &[u8], place: usize, word: u32) -> Vec<u8> {
    let mut store = store.to_vec();
    store[4 * place..4 * place + 4].copy_from_slice(&word.to_le_bytes());
    store
}

/// Each refusal of read and replace of an edition, alone and before those that
/// come later.
fn refused_stores(cases: &mut Vec<String>, edition: Edition) {
    let past = MOST as u32 + 1;
    let sound = kept(edition, &[0, 0, 2, 30, 0, 5], 2);
    let empty = kept(edition, &[], 2);
    let lone = kept(edition, &[0, 0, 2], 2);
    let longer = [sound.as_slice(), &[0; 48]].concat();
    let edges = Header::of(&sound).edges;
    let (first, entry) = (edition as u32, edition.entry_words());
    // A vertex at (x, 0) of radius 0 with so many edges, and so many at the end.
    let lone_words = |x: u32, count: u32, closing: u32| {
        let mut words = vec![first, 0, 8, 1, 0, x];
        words.resize(4 + entry, 0);
        words.extend([count, closing]);
        words
    };
    let mut stores = vec![
        vec![],
        empty[..23].to_vec(),
        empty.clone(),
        bytes(&[3, 0, 1, 0, 0]),
        bytes(&[first, 5, 9, 4097, 0]),
        bytes(&[3, 5, 9, 4097, 0, 0]),
        bytes(&[first, 5, 9, 4097, 0, 0]),
        bytes(&[first, 0, 9, 4097, 0, 0]),
        bytes(&[first, 0, 8, 4097, 0, 0]),
        bytes(&[first, 0, 8, 4096, 0, 0]),
        bytes(&[first, 0, 8, u32::MAX, u32::MAX, 0]),
        bytes(&[first, 0, 8, 0, u32::MAX, 0]),
        bytes(&[first, 0, 8, 0, 1 << 28, 0]),
        bytes(&lone_words(past, 0, 0)[..5 + entry]),
        bytes(&lone_words(past, 0, 0)),
        bytes(&lone_words(0, 0, 9)),
        bytes(&lone_words(0, 9, 0)),
        bytes(&[first, 0, 8, 0, 0, 1 << 24]),
        sound[..sound.len() - 1].to_vec(),
        sound[..24].to_vec(),
        [lone.as_slice(), &lone].concat(),
    ];
    for word in [0, 1, 2, 3, 257, 1 << 24, u32::MAX] {
        stores.push(with_word(&sound, 0, word));
        stores.push(with_word(&longer, 0, word));
    }
    for word in [1, 256, 1 << 31, u32::MAX] {
        stores.push(with_word(&sound, 1, word));
    }
    for word in [0, 1, 8, 9, 257, u32::MAX] {
        stores.push(with_word(&sound, 2, word));
    }
    for word in [0, 1, 3, 4096, 4097, 1 << 30, u32::MAX] {
        stores.push(with_word(&longer, 3, word));
    }
    for word in [0, edges - 1, edges + 1, edges + 3, edges + 4, u32::MAX] {
        stores.push(with_word(&longer, 4, word));
    }
    for place in 5..=5 + 2 * entry {
        for word in [past, past.wrapping_neg(), past - 1, u32::MAX, 1 << 31] {
            stores.push(with_word(&sound, place, word));
        }
    }
    // One edge more for one body and one less for the other.
    let places = [4 + entry, 4 + 2 * entry, 5 + 2 * entry];
    let counts = places.map(|place| outline::word(&sound, place));
    let moved = with_word(&sound, places[1], counts[1] - 1);
    stores.push(with_word(&moved, places[2], counts[2] + 1));
    stores.push(with_word(&moved, places[0], counts[0] + 1));

    for store in &stores {
        cases.push(read_case(6, store));
        cases.push(replace_case(0, [1, 1, 1], store));
        cases.push(replace_case(9, [MOST + 1, 0, 0], store));
    }
    for room in 0..8 {
        cases.push(read_case(room, &sound));
    }
    for index in [2, 3, 4096, 4294967295, 4294967296, 4294967297, i64::MAX] {
        cases.push(replace_case(index, [0, 0, 2], &sound));
        cases.push(replace_case(index, [0, 0, -2], &sound));
    }
    cases.push(replace_case(0, [0, 0, 2], &empty));
    for vertex in [
        [MOST + 1, 0, 0],
        [0, -MOST - 1, 0],
        [0, 0, MOST + 1],
        [0, 0, -1],
        [i32::MIN, i32::MIN, i32::MIN],
        [MOST, -MOST, 0],
        [MOST, -MOST, MOST],
    ] {
        cases.push(replace_case(1, vertex, &sound));
        cases.push(replace_case(
            1,
            vertex,
            &[sound.as_slice(), &[7; 200]].concat(),
        ));
    }
}

/// Kerbs, which are read and not replaced, and each refusal of a store of kind
/// 1, alone and before those that come later.
fn kept_kerbs(cases: &mut Vec<String>) {
    let corner = [[0, 0], [20, 0], [20, 20]];
    let sound = kept_kerb(&corner, 1, [5, 1, 0]);
    let past = MOST as u32 + 1;
    let mut stores = vec![
        kept_kerb(&[], 1, [0, 0, 0]),
        kept_kerb(&[], 8, [MOST as u32, 1, 1]),
        kept_kerb(&[[7, -7]], 1, [5, 0, 0]),
        kept_kerb(&corner[..2], 1, [5, 0, 1]),
        kept_kerb(&corner, 3, [1, 1, 1]),
        kept_kerb(&[[0, 0], [20, 0], [20, 0], [0, 20], [0, 0]], 2, [4, 1, 1]),
        sound.clone(),
        sound[..43].to_vec(),
        sound[..44].to_vec(),
        sound[..sound.len() - 1].to_vec(),
        [sound.as_slice(), &[0xEE; 9]].concat(),
        bytes(&[1, 1, 9, 4097, 0, past, 2, 2, 0, 0]),
        bytes(&[1, 1, 9, 4097, 0, past, 2, 2, 0, 0, 0]),
        bytes(&[1, 2, 9, 4097, 0, past, 2, 2, 0, 0, 0]),
        bytes(&[2, 2, 9, 4097, 0, past, 2, 2, 0, 0, 0]),
        bytes(&[2, 1, 9, 4097, 0, past, 2, 2, 0, 0, 0]),
        bytes(&[2, 1, 9, 4097, 0, past, 2, 2, 0, 0]),
        bytes(&[3, 1, 9, 4097, 0, past, 2, 2, 0, 0, 0]),
        with_word(&kept_kerb(&[], 1, [0, 0, 0]), 0, 2),
        bytes(&[1, 1, 8, 4097, 0, past, 2, 2, 0, 0, 0]),
        bytes(&[1, 1, 8, 4097, 0, 5, 2, 2, 0, 0, 0]),
        bytes(&[1, 1, 8, 4097, 0, 5, 1, 2, 0, 0, 0]),
        bytes(&[1, 1, 8, 4097, 0, 5, 1, 1, 0, 0, 0]),
        bytes(&[1, 1, 8, 1, u32::MAX, 5, 1, 1, past, 0, 0, 0, 0]),
        bytes(&[1, 1, 8, 1, 0, 5, 1, 1, past, 0, 7, 0, 0]),
        bytes(&[1, 1, 8, 1, 0, 5, 1, 1, 0, 0, 7, 0, 0]),
    ];
    for place in 0..17 {
        for word in [0, 1, 2, past, past.wrapping_neg(), u32::MAX] {
            stores.push(with_word(&sound, place, word));
        }
    }
    for store in &stores {
        cases.push(read_case(6, store));
        cases.push(replace_case(0, [1, 1, 5], store));
        cases.push(replace_case(9, [MOST + 1, 0, 0], store));
    }
    for room in 0..8 {
        cases.push(read_case(room, &sound));
    }
    for at in 0..sound.len() {
        let mut store = sound.clone();
        store[at] = store[at].wrapping_add(128);
        cases.push(read_case(6, &store));
    }
}

/// Replaced outlines that grow into room, lack one byte of it, or shrink.
fn changed_lengths(cases: &mut Vec<String>, edition: Edition) {
    let small = [0, 0, 1];
    let large = [0, 0, 10];
    let (less, more) = (length(&small, 2), length(&large, 2));
    for extra in [
        0,
        more - less - 1,
        more - less,
        more - less + 1,
        more - less + 9,
    ] {
        let store = [kept(edition, &small, 2), vec![0xEE; extra]].concat();
        cases.push(replace_case(0, large, &store));
    }
    // From a circle to two sides and two half turns: 14 edges, then 16.
    for extra in [0, 31, 32, 33, 41] {
        let edit = Edit {
            extra,
            at: NOWHERE,
            value: 0,
            index: 1,
            vertex: [20, 0, 5],
        };
        cases.push(edit_case(2, &edit, &flat(EXAMPLES[8])));
    }
    for extra in [0, 1, 9] {
        let store = [kept(edition, &large, 2), vec![0xEE; extra]].concat();
        cases.push(replace_case(0, small, &store));
        cases.push(replace_case(0, [5, 5, 2], &store));
        cases.push(replace_case(0, large, &store));
    }
    let path = flat(EXAMPLES[5]);
    for index in 0..3 {
        for vertex in [[20, 0, 5], [20, 5, 5], [0, 0, 0], [20, 0, 40], [21, 0, 1]] {
            let store = [kept(edition, &path, 2), vec![0xEE; 100]].concat();
            cases.push(replace_case(index, vertex, &store));
        }
    }
}

/// Small outlines with each of their bytes damaged in turn.
fn each_byte_damaged(cases: &mut Vec<String>) {
    for (path, value) in [(EXAMPLES[1], 128), (EXAMPLES[4], 1), (EXAMPLES[3], 255)] {
        let path = flat(path);
        for at in 0..needed(&path, 2) + 2 {
            let edit = Edit {
                extra: 2,
                at: at as i64,
                value,
                index: 0,
                vertex: [1, 2, 3],
            };
            cases.push(edit_case(2, &edit, &path));
        }
    }
    for (path, grade, value) in [
        (EXAMPLES[0], 1, 1),
        (EXAMPLES[0], 2, 255),
        (EXAMPLES[3], 1, 1),
        (EXAMPLES[3], 2, 1),
        (EXAMPLES[9], 2, 255),
    ] {
        for edition in EDITIONS {
            let store = kept(edition, &flat(path), grade);
            for at in 0..store.len() {
                let mut store = store.clone();
                store[at] = store[at].wrapping_add(value);
                cases.push(read_case(6, &store));
                cases.push(replace_case(0, [0, 0, 2], &store));
            }
        }
    }
}

/// As many vertices as are allowed, and one more.
fn many_vertices(cases: &mut Vec<String>) {
    let path = |count: i32, radius: i32, bend: i32| -> Vec<i32> {
        let vertex = |i| [50 * i, bend * (i % 3), radius + i % 4];
        (0..count).flat_map(vertex).collect()
    };
    // Its outline has less than half a mebibyte, as much as the program that is
    // run on the list lends.
    let small = path(4096, 1, 20);
    let large = path(4096, 100_000_000, 20);
    for grade in [2, 8] {
        cases.push(draw_case(grade, 0, &small));
        cases.push(draw_case(grade, 0, &large));
        cases.push(keep_case(grade, 0, &large));
    }
    cases.push(draw_case(2, needed_numbers(&small, 2), &small));
    cases.push(keep_case(2, needed(&small, 2), &small));
    cases.push(draw_case(8, 0, &path(4096, 100_000_000, 0)));
    let edit = Edit {
        extra: 500,
        at: NOWHERE,
        value: 0,
        index: 4095,
        vertex: [0, 0, 77],
    };
    cases.push(edit_case(2, &edit, &small));
    let past = path(4097, 10, 20);
    for (grade, path) in [
        (1, &past[..]),
        (2, &past[..]),
        (8, &past[..]),
        (9, &past[..]),
        (2, &past[1..]),
    ] {
        cases.push(draw_case(grade, 0, path));
        cases.push(keep_case(grade, 0, path));
    }
    let mut outside = past.clone();
    outside[0] = MOST + 1;
    cases.push(draw_case(2, 0, &outside));
    outside.truncate(3 * 4096);
    cases.push(draw_case(2, 0, &outside));
    outside[0] = 0;
    outside[3 * 4095 + 2] = -1;
    cases.push(draw_case(2, 0, &outside));
    cases.push(keep_case(2, 0, &outside));
}

/// Most characters of a random case.
const LONGEST: usize = 15_999;

/// `count` cases that `seed` determines.
pub fn random(seed: u64, count: usize) -> impl Iterator<Item = String> {
    let mut maker = Maker {
        random: Random::new(seed),
        turn: 0,
    };
    (0..count).map(move |_| maker.short_case())
}

struct Maker {
    random: Random,
    /// How many damages in turn were made.
    turn: usize,
}

impl Maker {
    fn short_case(&mut self) -> String {
        loop {
            let case = self.case();
            if case.len() <= LONGEST {
                return case;
            }
        }
    }

    fn case(&mut self) -> String {
        match self.random.below(100) {
            0..20 => self.draw(),
            20..40 => self.keep(),
            40..57 => self.read(),
            57..77 => self.replace(),
            77..92 => self.edit(),
            _ => self.damage_in_turn(),
        }
    }

    /// Room near what is needed.
    fn room(&mut self, needed: usize) -> usize {
        let random = &mut self.random;
        match random.below(20) {
            0..6 => needed,
            6..9 => needed.saturating_sub(1),
            9 => needed.saturating_sub(random.below(5) as usize),
            10..12 => 0,
            12..17 => needed + random.below(10) as usize,
            17 => needed + random.below(300) as usize,
            _ => random.below(needed as u64 + 1) as usize,
        }
    }

    fn grade(&mut self) -> u32 {
        match self.random.below(100) {
            0..35 => 2,
            35..95 => self.random.between(2, 8) as u32,
            _ => self.random.pick(&[0, 1, 1, 9, 255, 256, 257, u32::MAX]),
        }
    }

    fn vertex(&mut self, side: i64, radius: i64) -> Triple {
        let random = &mut self.random;
        let x = random.between(-side, side) as i32;
        let y = random.between(-side, side) as i32;
        [x, y, random.between(0, radius) as i32]
    }

    /// A vertex at the ends of the limits.
    fn corner(&mut self) -> Triple {
        let sides = [-MOST, 1 - MOST, -1, 0, 1, MOST - 1, MOST];
        let radii = [0, 1, 2, MOST / 2, MOST - 1, MOST];
        let (x, y) = (self.random.pick(&sides), self.random.pick(&sides));
        [x, y, self.random.pick(&radii)]
    }

    /// A vertex that may lie just past the limits.
    fn any_vertex(&mut self) -> Triple {
        let mut vertex = match self.random.below(10) {
            0..6 => self.vertex(30, 12),
            6 => self.vertex(4, 3),
            7 => self.vertex(1000, 300),
            8 => self.vertex(LIMIT, LIMIT),
            _ => self.corner(),
        };
        if self.random.chance(6) {
            self.spoil(&mut vertex);
        }
        vertex
    }

    /// Moves a vertex past the limits.
    fn spoil(&mut self, vertex: &mut Triple) {
        let random = &mut self.random;
        let place = random.below(3) as usize;
        vertex[place] = match place {
            2 => random.pick(&[-1, -2, -MOST, MOST + 1, i32::MAX, i32::MIN]),
            _ => random.pick(&[MOST + 1, -MOST - 1, i32::MAX, i32::MIN]),
        };
    }

    /// Vertices on a line, ahead and back, of much the same radius.
    fn run(&mut self, count: usize) -> Vec<Triple> {
        let random = &mut self.random;
        let (dx, dy) = (random.between(-5, 5), random.between(-5, 5));
        let radius = random.between(0, 12);
        let mut place = random.between(-4, 4);
        let mut path = Vec::new();
        for _ in 0..count {
            let change = random.pick(&[0, 0, 0, 0, 1, -1]);
            let radius = (radius + change).max(0);
            path.push([(dx * place) as i32, (dy * place) as i32, radius as i32]);
            place += random.pick(&[1, 1, 1, 2, 3, 0, -1, -2]);
        }
        path
    }

    /// Wide sections and small circles between their ends.
    fn cover(&mut self, count: usize) -> Vec<Triple> {
        let mut path: Vec<Triple> = Vec::new();
        for place in 0..count {
            let vertex = if place % 3 < 2 {
                self.vertex(60, 25)
            } else {
                let ([ax, ay, _], [bx, by, _]) = (path[place - 2], path[place - 1]);
                let part = self.random.between(0, 4) as i32;
                let [dx, dy, radius] = self.vertex(3, 8);
                let (x, y) = (ax + (bx - ax) * part / 4, ay + (by - ay) * part / 4);
                [x + dx, y + dy, radius]
            };
            path.push(vertex);
        }
        path
    }

    /// Wide circles that all but lie on one another, on a line, their radii
    /// in proportion: there rays differ where their directions do not.
    fn pile(&mut self, count: usize) -> Vec<Triple> {
        let random = &mut self.random;
        let radius = random.between(LIMIT / 4, LIMIT - 20_000);
        let (dx, dy) = random.pick(&[(0, 1), (1, 0), (0, -1), (-1, 0), (1, 1), (2, -1)]);
        let spread = random.between(2, 50);
        let slope = random.between(1 - spread, spread - 1);
        let mut place = 0;
        let mut path = Vec::new();
        for _ in 0..count {
            let (x, y) = (dx * spread * place, dy * spread * place);
            path.push([x, y, radius + slope * place].map(|n| n as i32));
            place += random.pick(&[1, 1, 2, 3, 5, 8, -1]);
        }
        path
    }

    /// Vertices of radius 0 and 1, and mostly one that is wider.
    fn thin(&mut self, count: usize) -> Vec<Triple> {
        let side = self.random.pick(&[2, 30, LIMIT]);
        let mut path: Vec<Triple> = (0..count).map(|_| self.vertex(side, 1)).collect();
        if count > 0 && self.random.chance(60) {
            let place = self.random.below(count as u64) as usize;
            path[place][2] = self.random.between(2, 12) as i32;
        }
        path
    }

    /// A path inside the limits.
    fn sound_path(&mut self) -> Vec<Triple> {
        let count = match self.random.below(100) {
            0..4 => 0,
            4..12 => 1,
            12..62 => self.random.between(2, 4),
            62..93 => self.random.between(5, 9),
            _ => self.random.between(10, 40),
        } as usize;
        let style = self.random.below(100);
        let mut path: Vec<Triple> = match style {
            0..28 => (0..count).map(|_| self.vertex(30, 12)).collect(),
            28..36 => self.thin(count),
            36..40 => self.pile(count),
            40..52 => (0..count).map(|_| self.vertex(4, 3)).collect(),
            52..65 => self.run(count),
            65..77 => self.cover(count),
            77..83 => (0..count).map(|_| self.vertex(1000, 300)).collect(),
            83..88 => (0..count).map(|_| self.vertex(LIMIT, LIMIT)).collect(),
            88..92 => (0..count).map(|_| self.vertex(LIMIT, 1000)).collect(),
            92..95 => (0..count).map(|_| self.vertex(300, LIMIT)).collect(),
            _ => (0..count).map(|_| self.corner()).collect(),
        };
        for place in 1..count {
            let [x, y, radius] = path[place - 1];
            match self.random.below(40) {
                0 => path[place] = [x, y, radius],
                1 => path[place] = [x, y, path[place][2]],
                2 => path[place] = [path[place][0], y, radius],
                _ => (),
            }
        }
        path
    }

    /// A path that may be refused, as lent numbers.
    fn path(&mut self) -> Vec<i32> {
        let mut path = self.sound_path();
        if !path.is_empty() && self.random.chance(7) {
            let place = self.random.below(path.len() as u64) as usize;
            self.spoil(&mut path[place]);
        }
        let mut path = flat(&path);
        match self.random.below(60) {
            0 => path.push(3),
            1 => path.extend([3, 3]),
            2 => drop(path.pop()),
            _ => (),
        }
        path
    }

    fn draw(&mut self) -> String {
        let (path, grade) = (self.path(), self.grade());
        let needed = needed_numbers(&path, grade);
        draw_case(grade, self.room(needed), &path)
    }

    fn keep(&mut self) -> String {
        let (path, grade) = (self.path(), self.grade());
        let length = length(&path, grade);
        keep_case(grade, self.room(length), &path)
    }

    /// A kerb short enough to be written as a case, and its points.
    fn kerb(&mut self) -> (usize, Vec<u8>) {
        loop {
            let path = self.sound_path();
            let points: Vec<[i32; 2]> = path.iter().map(|&[x, y, _]| [x, y]).collect();
            let random = &mut self.random;
            let radius = random.pick(&[0, 1, 2, 5, 12, 300, MOST as u32]);
            let style = [radius, random.below(2) as u32, random.below(2) as u32];
            let grade = random.pick(&[1, 1, 1, 2, 3, 5, 8]);
            let store = kept_kerb(&points, grade, style);
            if store.len() <= random.pick(&[200, 600, 1200, 3800]) {
                return (points.len(), store);
            }
        }
    }

    /// A point number: any word, most often a small one.
    fn number(&mut self) -> u32 {
        let random = &mut self.random;
        match random.below(4) {
            0 => 0,
            1 => random.between(0, u32::MAX as i64) as u32,
            _ => random.below(1000) as u32,
        }
    }

    /// An outline of either edition short enough to be written as a case, and
    /// its path.
    fn store(&mut self) -> (Vec<Triple>, u32, Vec<u8>) {
        loop {
            let path = self.sound_path();
            let grade = match self.random.below(100) {
                0..15 => 1,
                15..65 => 2,
                _ => self.random.between(1, 8) as u32,
            };
            let edition = self.random.pick(&EDITIONS);
            let numbers: Vec<u32> = path.iter().map(|_| self.number()).collect();
            let store = numbered(edition, &flat(&path), &numbers, grade);
            let most = self.random.pick(&[200, 600, 1200, 3800]);
            if store.len() <= most {
                return (path, grade, store);
            }
        }
    }

    /// A byte or a word of a store changed, or its end cut.
    fn damage(&mut self, store: &mut Vec<u8>) {
        let header = Header::of(store);
        let (vertices, edges) = (header.vertices, header.edges);
        let entry = Edition::of(header.edition).map_or(4, Edition::entry_words) as u64;
        let kerb = header.kind == outline::KERB;
        let places = store.len() as u64 / 4;
        let past = MOST as u32 + 1;
        let random = &mut self.random;
        let (place, word) = match random.below(14) {
            0..3 => {
                let at = random.below(store.len() as u64) as usize;
                store[at] = store[at].wrapping_add(random.between(1, 255) as u8);
                return;
            }
            3 => {
                store.truncate(random.below(store.len() as u64) as usize);
                return;
            }
            4 => {
                store.truncate(random.pick(&[0, 4, 23, 24, store.len() - 1]));
                return;
            }
            5 => (0, random.pick(&[0, 1, 2, 3, 257, u32::MAX])),
            6 => (1, random.pick(&[0, 1, 2, 1 << 16, 1 << 31])),
            7 => (2, random.pick(&[0, 1, 2, 8, 9, 256, u32::MAX])),
            8 => {
                let choices = [vertices + 1, vertices.max(1) - 1, 4096, 4097, u32::MAX];
                (3, random.pick(&choices))
            }
            9 => {
                let choices = [edges + 1, edges.max(1) - 1, edges + 2, 0, u32::MAX];
                (4, random.pick(&choices))
            }
            10 if vertices > 0 => {
                let vertex = random.below(vertices as u64);
                let place = match kerb {
                    true => 8 + 2 * vertex + random.below(2),
                    false => 5 + entry * vertex + random.below(entry - 1),
                };
                let words = [past, past.wrapping_neg(), 1 << 31, u32::MAX, 0, 1];
                (place as usize, random.pick(&words))
            }
            11 if vertices > 0 => {
                let place = match kerb {
                    true => 8 + 2 * vertices as u64 + random.below(3),
                    false => 4 + entry * (1 + random.below(vertices as u64)),
                };
                (place as usize, random.below(12) as u32)
            }
            12 if kerb => {
                let place = 5 + random.below(3) as usize;
                (place, random.pick(&[0, 1, 2, past, u32::MAX]))
            }
            _ => (random.below(places) as usize, random.below(30) as u32),
        };
        *store = with_word(store, place, word);
    }

    /// Bytes after an outline.
    fn lengthen(&mut self, store: &mut Vec<u8>, count: usize) {
        for _ in 0..count {
            store.push(self.random.pick(&[0, 0xEE, store.len() as u8]));
        }
    }

    fn read(&mut self) -> String {
        let (needed, mut store) = if self.random.chance(35) {
            let (points, store) = self.kerb();
            (2 * points, store)
        } else {
            let (path, _, store) = self.store();
            (3 * path.len(), store)
        };
        let more = self.random.pick(&[0, 0, 0, 1, 5, 16, 40]);
        if self.random.chance(55) {
            self.damage(&mut store);
        }
        self.lengthen(&mut store, more);
        let room = self.room(needed);
        read_case(room, &store)
    }

    /// An index that is mostly below `count`.
    fn index(&mut self, count: usize) -> i64 {
        let random = &mut self.random;
        match random.below(20) {
            0 => count as i64,
            1 => random.pick(&[count as i64 + 1, 4096, 4294967296, i64::MAX]),
            _ => random.below(count.max(1) as u64) as i64,
        }
    }

    /// A vertex in the place of `old`: anywhere, or `old` a little changed.
    fn replacement(&mut self, old: Option<&Triple>) -> Triple {
        let [dx, dy, radius] = self.vertex(2, 6);
        if self.random.chance(10) {
            return self.vertex(30, 1);
        }
        match old {
            Some(&[x, y, r]) if self.random.chance(40) => {
                let r = self.random.pick(&[r, r, radius, 0]);
                [x + dx, y + dy, r]
            }
            _ => self.any_vertex(),
        }
    }

    /// How many bytes a replaced outline grows by, 0 if it does not.
    fn growth(&self, path: &[Triple], grade: u32, index: i64, vertex: Triple) -> usize {
        let old = length(&flat(path), grade);
        let mut path = path.to_vec();
        if let Some(place) = path.get_mut(index as usize) {
            *place = vertex;
        }
        length(&flat(&path), grade).saturating_sub(old)
    }

    fn replace(&mut self) -> String {
        if self.random.chance(8) {
            let (points, mut store) = self.kerb();
            if self.random.chance(50) {
                self.damage(&mut store);
            }
            let (index, vertex) = (self.index(points), self.any_vertex());
            return replace_case(index, vertex, &store);
        }
        let (path, grade, mut store) = self.store();
        let index = self.index(path.len());
        let vertex = self.replacement(path.get(index as usize));
        let growth = self.growth(&path, grade, index, vertex);
        if self.random.chance(25) {
            self.damage(&mut store);
        }
        let more = self.room(growth);
        self.lengthen(&mut store, more);
        replace_case(index, vertex, &store)
    }

    fn edit(&mut self) -> String {
        let grade = self.grade();
        let path = if self.random.chance(85) {
            self.sound_path()
        } else {
            self.path()
                .chunks_exact(3)
                .map(|n| [n[0], n[1], n[2]])
                .collect()
        };
        let index = self.index(path.len());
        let vertex = self.replacement(path.get(index as usize));
        let growth = self.growth(&path, grade, index, vertex);
        let extra = self.room(growth);
        let length = needed(&flat(&path), grade) + extra;
        let (at, value) = match self.random.below(10) {
            0..6 => (NOWHERE, 0),
            6 => (length as i64, 1),
            _ => {
                let at = self.random.below(length as u64 + 1);
                (at as i64, self.random.pick(&[1, 255, 128, 256, 77]))
            }
        };
        let edit = Edit {
            extra: extra as i64,
            at,
            value,
            index,
            vertex,
        };
        let mut path = flat(&path);
        if self.random.chance(1) {
            path.pop();
        }
        edit_case(grade, &edit, &path)
    }

    /// Small outlines with each of their bytes damaged in turn, those of edition
    /// 1 and those without edges as lent stores, since they are no longer kept.
    fn damage_in_turn(&mut self) -> String {
        let paths = [
            READINGS[0],
            EXAMPLES[1],
            READINGS[1],
            EXAMPLES[0],
            EXAMPLES[9],
        ];
        let mut at = self.turn;
        self.turn += 1;
        let stores: Vec<Vec<u8>> = EDITIONS
            .iter()
            .flat_map(|&edition| paths.map(|path| kept(edition, &flat(path), 2)))
            .collect();
        at %= stores.iter().map(Vec::len).sum::<usize>();
        let mut place = 0;
        while at >= stores[place].len() {
            at -= stores[place].len();
            place += 1;
        }
        let second = place >= paths.len();
        let path = flat(paths[place % paths.len()]);
        let edit = Edit {
            extra: self.random.pick(&[0, 1, 200]),
            at: at as i64,
            value: self.random.between(1, 255),
            index: self.index(path.len() / 3),
            vertex: self.any_vertex(),
        };
        if second && needed(&path, 2) > 0 {
            return edit_case(2, &edit, &path);
        }
        let mut store = stores[place].clone();
        store[at] = store[at].wrapping_add(edit.value as u8);
        match self.random.chance(50) {
            true => read_case(path.len(), &store),
            false => replace_case(edit.index, edit.vertex, &store),
        }
    }
}

#[cfg(test)]
mod tests {
    use super::*;

    #[test]
    fn sound_paths_lie_inside_the_limits() {
        let mut maker = Maker {
            random: Random::new(5),
            turn: 0,
        };
        for _ in 0..2_000 {
            for [x, y, radius] in maker.sound_path() {
                assert!(Vertex::new(x as i64, y as i64, radius as i64).allowed());
            }
        }
    }
}
