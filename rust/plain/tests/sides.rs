//! Document 02, request 10: bodies as parts of a chosen sheet.

mod common;

use common::{kept, numbered, random_path, vertices};
use plain::calls::Part;
use plain::chains::bodies;
use plain::kerbs::Style;
use plain::numbers::Point;
use plain::outline::kerb_bytes;
use plain::random::Random;
use plain::sides::side;

/// A refusal: an empty part.
fn refused(reply: u32, number: u64) -> Part {
    Part {
        reply,
        number,
        offset: 0,
        length: 0,
    }
}

/// An edge's bytes.
fn edge_bytes(edge: &[i32; 4]) -> impl Iterator<Item = u8> + '_ {
    edge.iter().flat_map(|number| number.to_le_bytes())
}

/// Part after part, the bodies of the chosen sheet: what the rules draw, from the
/// first byte after the counts to the last one of the sheet.
#[test]
fn parts_are_bodies() {
    let mut random = Random::new(101);
    for _ in 0..2_000 {
        let grade = random.between(1, 4) as u32;
        let paths = [random_path(&mut random, 6), random_path(&mut random, 6)];
        let sheets = paths.each_ref().map(|path| match random.chance(50) {
            true => kept(path, grade),
            false => numbered(path, &[411, u32::MAX], grade),
        });
        let [before, after] = sheets.each_ref().map(|sheet| {
            let more = random.below(3) as usize;
            [sheet.as_slice(), &[7; 2][..more]].concat()
        });
        for later in [false, true] {
            let (path, sheet) = (&paths[later as usize], &sheets[later as usize]);
            let bodies = bodies(&vertices(path), grade);
            let edges: usize = bodies.iter().map(Vec::len).sum();
            let mut at = sheet.len() - 16 * edges;
            for (vertex, body) in bodies.iter().enumerate() {
                let part = side(&before, &after, later, vertex);
                let length = 16 * body.len();
                let due = Part {
                    reply: 0,
                    number: body.len() as u64,
                    offset: at as u64,
                    length: length as u64,
                };
                assert_eq!(part, due);
                assert!(body
                    .iter()
                    .flat_map(edge_bytes)
                    .eq(sheet[at..at + length].iter().copied()));
                at += length;
            }
            for vertex in [bodies.len(), bodies.len() + 1, usize::MAX] {
                let due = refused(9, vertex as u64);
                assert_eq!(side(&before, &after, later, vertex), due);
            }
        }
    }
}

/// Reading 26: the whole check of the earlier sheet, its 8 included, comes
/// before the later's first test; then 12 with 1, then 9.
#[test]
fn refusals_in_order() {
    let sound = kept(&[(0, 0, 10)], 1);
    let longer = numbered(&[(0, 0, 5), (20, 0, 5)], &[], 2);
    let style = Style::of([5, 0, 0]).unwrap();
    let kerb = kerb_bytes(&[Point::new(0, 0), Point::new(20, 0)], 1, style);
    let mut unsound = sound.clone();
    unsound[60] ^= 1;
    let mut spoiled = kerb.clone();
    spoiled[48] ^= 1;
    let table: [(&[u8], &[u8], usize, Part); 10] = [
        (&unsound, &[], 9, refused(8, 60)),
        (&unsound, &kerb, 9, refused(8, 60)),
        (&spoiled, &[], 9, refused(8, 48)),
        (&kerb, &[], 9, refused(6, 0)),
        (&kerb, &unsound, 9, refused(8, 60)),
        (&sound, &unsound, 9, refused(8, 60)),
        (&sound, &kerb, 9, refused(12, 1)),
        (&kerb, &sound, 0, refused(12, 1)),
        (&kerb, &kerb, 0, refused(12, 1)),
        (&sound, &sound, 2, refused(9, 2)),
    ];
    for (before, after, vertex, due) in table {
        for later in [false, true] {
            assert_eq!(side(before, after, later, vertex), due);
        }
    }
    // n of the chosen sheet
    assert_eq!(side(&sound, &longer, false, 2), refused(9, 2));
    assert_eq!(side(&sound, &longer, true, 2).reply, 0);
    assert_eq!(side(&sound, &longer, true, 3), refused(9, 3));
    let closing = Part {
        reply: 0,
        number: 8,
        offset: 40,
        length: 128,
    };
    assert_eq!(side(&sound, &longer, false, 1), closing);
}
