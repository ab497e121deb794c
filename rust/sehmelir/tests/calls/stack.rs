//! How much stack the calls take.

use sehmelir::{
    convert, draw, draw_kerb, draw_records, explain, keep, keep_kerb, keep_records, kerb_bytes,
    list, numbers, outline, outline_bytes, reach, read, replace, salvage, side_range,
};
use sehmelir::{Chunk, Join, Refusal, Sheet, Style, Vertex};
use std::thread::Builder;

/// What draw and draw_kerb may take, and some for the thread that calls them.
const FOR_DRAW: usize = (528 + 32) * 1024;

/// The same of draw_records.
const FOR_RECORDS: usize = sehmelir::STACK + 32 * 1024;

/// What keep, keep_kerb, keep_records, read, numbers, replace, convert, reach, side,
/// explain, list, salvage and a chunk's add may take, and as much for the thread.
const FOR_OTHERS: usize = (256 + 32) * 1024;

/// What a chunk's find, remove and compact may take, and as much for the
/// thread. The system may give a thread more than that.
const FOR_CHUNKS: usize = (32 + 32) * 1024;

/// Each call in a thread whose stack is hardly larger than what it is said to
/// take: on as many vertices as there may be, and on the finest grade.
#[test]
fn is_at_most_what_is_said() {
    let hedge = |count: i32| -> Vec<i32> {
        let vertices = (0..count).map(|place| [50 * place, 20 * (place % 3), 10 + place % 4]);
        vertices.flatten().collect()
    };
    for (path, grade) in [(hedge(4096), 2), (hedge(40), 8), (hedge(1000), 7)] {
        let vertices = path.len() / 3;
        let lent = path.clone();
        let edges = on_a_stack_of(FOR_DRAW, move || {
            let Err(Refusal::NoRoom(edges)) = draw(&lent, grade, &mut []) else {
                panic!("nothing drawn");
            };
            let mut numbers = vec![0; 4 * edges];
            assert_eq!(draw(&lent, grade, &mut numbers), Ok(edges));
            edges
        });
        on_a_stack_of(FOR_OTHERS, move || {
            let bytes = outline_bytes(vertices, edges);
            let mut store = vec![0; bytes + 30_000];
            assert_eq!(keep(&path, grade, &mut store), Ok(bytes));
            assert!(replace(&mut store, vertices / 2, 7, 8, 9).is_ok());
            let mut out = vec![0; path.len()];
            let kept = read(&store, &mut out).unwrap();
            assert_eq!((kept.vertices, kept.grade), (vertices, grade));
            let mut points = vec![7; vertices];
            assert_eq!(numbers(&store, &mut points), Ok(vertices));
            assert_eq!(points, vec![0; vertices]);
            assert_eq!(reach(&store, 0), Ok(2));
            assert!(side_range(&store, &store, Sheet::After, vertices / 2).is_ok());
            assert!(explain(&store, edges / 2).is_ok());
            let mut out = vec![0; 5 * (edges + 2_000)];
            assert!(list(&store, &mut out).is_ok());
            store[16] ^= 1;
            let (mut sound, mut words) = (vec![0; store.len()], [0; 2]);
            let salvaged = salvage(&store, &mut sound, &mut words);
            assert_eq!(salvaged.map(|salvaged| salvaged.entries), Ok(1));
            store[16] ^= 1;
            assert!(convert(&mut store, 2).is_ok());
        });
    }
}

/// The same of a path of records.
#[test]
fn of_records_is_too() {
    for (count, grade) in [(4096, 2), (40, 8), (1000, 7)] {
        let vertex = |place: i32| Vertex::from([50 * place, 20 * (place % 3), 10 + place % 4]);
        let path: Vec<Vertex> = (0..count).map(vertex).collect();
        let lent = path.clone();
        let edges = on_a_stack_of(FOR_RECORDS, move || {
            let Err(Refusal::NoRoom(edges)) = draw_records(&lent, grade, &mut []) else {
                panic!("nothing drawn");
            };
            let mut numbers = vec![0; 4 * edges];
            assert_eq!(draw_records(&lent, grade, &mut numbers), Ok(edges));
            edges
        });
        on_a_stack_of(FOR_OTHERS, move || {
            let mut store = vec![0; outline_bytes(path.len(), edges)];
            assert_eq!(keep_records(&path, grade, &mut store), Ok(store.len()));
        });
    }
}

/// The calls of a chunk, on as many entries as there may be, whose keys and
/// offsets are in no order.
#[test]
fn of_chunks_is_at_most_what_is_said() {
    let wide = outline(&[0, 0, 500, 2000, 0, 400, 4000, 900, 300], 8).unwrap();
    let small = outline(&[0, 0, 10], 2).unwrap();
    let mut chunk = Chunk::make(vec![0; 200_000 + wide.len()], 1024).unwrap();
    for place in 0..1023 {
        chunk.add(place * 7919 % 1023, &small).unwrap();
        if place % 3 == 2 {
            chunk.remove((place - 1) * 7919 % 1023).unwrap();
        }
    }
    let mut chunk = on_a_stack_of(FOR_OTHERS, move || {
        assert_eq!(chunk.add(4000, &wide), Ok(wide.len()));
        chunk
    });
    on_a_stack_of(FOR_CHUNKS, move || {
        assert!(chunk.find(0).is_ok() && chunk.find(4001).is_err());
        assert_eq!(chunk.remove(0), Ok(268));
        assert!(chunk.compact().is_ok());
    });
}

/// The same of kerbs.
#[test]
fn of_kerbs_is_too() {
    let style = Style {
        radius: 600,
        join: Join::Round,
        closed: true,
    };
    for (count, grade) in [(4096, 2), (40, 8), (4096, 8)] {
        let vertex = |place: i32| [2000 * (place % 90), 700 * (place % 7) + place];
        let points: Vec<i32> = (0..count).flat_map(vertex).collect();
        let lent = points.clone();
        let edges = on_a_stack_of(FOR_DRAW, move || {
            let Err(Refusal::NoRoom(edges)) = draw_kerb(&lent, grade, style, &mut []) else {
                panic!("nothing drawn");
            };
            let mut numbers = vec![0; 4 * edges];
            assert_eq!(draw_kerb(&lent, grade, style, &mut numbers), Ok(edges));
            edges
        });
        on_a_stack_of(FOR_OTHERS, move || {
            let bytes = kerb_bytes(count as usize, edges);
            let mut store = vec![0; bytes];
            assert_eq!(keep_kerb(&points, grade, style, &mut store), Ok(bytes));
            let mut numbers = vec![0; points.len()];
            assert_eq!(read(&store, &mut numbers).unwrap().grade, grade);
            assert_eq!(numbers, points);
            assert_eq!(replace(&mut store, 0, 7, 8, 9), Err(Refusal::OtherKind(1)));
            assert_eq!(reach(&store, 0), Err(Refusal::OtherKind(1)));
            assert!(convert(&mut store, 2).is_ok());
        });
    }
}

/// What `calls` gives, in a thread of its own.
fn on_a_stack_of<T: Send + 'static>(bytes: usize, calls: impl FnOnce() -> T + Send + 'static) -> T {
    let thread = Builder::new().stack_size(bytes).spawn(calls).unwrap();
    thread.join().unwrap()
}
