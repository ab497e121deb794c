//! Document 02, request 3: kerbs, by hand, by the readings' smallest inputs,
//! and what must hold for each.

mod common;

use common::vertices;
use plain::calls::{draw_kerb, keep_kerb, reach, read, replace, Reply};
use plain::kerbs::{sections, walk, Join, KerbDrawing, Style};
use plain::numbers::{direction, Point};
use plain::outline::{kerb_bytes, kerb_words};
use plain::random::Random;
use std::collections::HashMap;

const BEVEL: Style = Style {
    radius: 5,
    join: Join::Bevel,
    closed: false,
};

fn round(style: Style) -> Style {
    Style {
        join: Join::Round,
        ..style
    }
}

fn closed(style: Style) -> Style {
    Style {
        closed: true,
        ..style
    }
}

fn points(numbers: &[(i64, i64)]) -> Vec<Point> {
    numbers.iter().map(|&(x, y)| Point::new(x, y)).collect()
}

fn lent(points: &[Point]) -> Vec<i32> {
    points
        .iter()
        .flat_map(|point| [point.x as i32, point.y as i32])
        .collect()
}

/// The section, join and cap edges of a kerb at grade 1.
fn bodies(line: &[(i64, i64)], style: Style) -> [Vec<[i32; 4]>; 3] {
    let KerbDrawing { edges, counts } = walk(&points(line), 1, style);
    let (sides, rest) = edges.split_at(counts[0] as usize);
    let (joins, caps) = rest.split_at(counts[1] as usize);
    [sides, joins, caps].map(<[_]>::to_vec)
}

#[test]
fn one_section() {
    let sides = vec![[20, 5, 0, 5], [0, -5, 20, -5]];
    let caps = vec![[0, 5, 0, -5], [20, -5, 20, 5]];
    for style in [BEVEL, round(BEVEL)] {
        let bodies = bodies(&[(0, 0), (20, 0)], style);
        assert_eq!(bodies, [sides.clone(), vec![], caps.clone()]);
    }
}

#[test]
fn reading_18_a_straight_joint_has_its_inner_edges() {
    for style in [BEVEL, round(BEVEL)] {
        let [sides, joins, caps] = bodies(&[(0, 0), (20, 0), (40, 0)], style);
        assert_eq!((sides.len(), caps.len()), (4, 2));
        assert_eq!(joins, [[20, 5, 20, 0], [20, 0, 20, 5]]);
    }
}

#[test]
fn turns_to_the_left_and_to_the_right() {
    let left = [(0, 0), (20, 0), (20, 20)];
    let inner = [[15, 0, 20, 0], [20, 0, 20, 5]];
    let [_, joins, _] = bodies(&left, BEVEL);
    assert_eq!(joins[..2], inner);
    assert_eq!(joins[2..], [[20, -5, 25, 0]]);
    let [_, joins, _] = bodies(&left, round(BEVEL));
    assert_eq!(joins[..2], inner);
    assert_eq!(joins[2..], [[20, -5, 24, -3], [24, -3, 25, 0]]);

    let right = [(0, 0), (20, 0), (20, -20)];
    let inner = [[20, -5, 20, 0], [20, 0, 15, 0]];
    let [_, joins, _] = bodies(&right, BEVEL);
    assert_eq!(joins[..2], inner);
    assert_eq!(joins[2..], [[25, 0, 20, 5]]);
    let [_, joins, _] = bodies(&right, round(BEVEL));
    assert_eq!(joins[..2], inner);
    assert_eq!(joins[2..], [[25, 0, 23, 4], [23, 4, 20, 5]]);
}

#[test]
fn reading_18_all_sections_then_all_joins_then_the_caps() {
    let [sides, joins, caps] = bodies(&[(0, 0), (20, 0), (20, 20), (40, 20)], BEVEL);
    assert_eq!(sides[0], [20, 5, 0, 5]);
    assert_eq!(sides[2], [15, 20, 15, 0]);
    assert_eq!(sides[4], [40, 25, 20, 25]);
    assert_eq!((sides.len(), joins.len()), (6, 6));
    assert_eq!(joins[0][2..], [20, 0]);
    assert_eq!(joins[3][2..], [20, 20]);
    assert_eq!(caps, [[0, 5, 0, -5], [40, 15, 40, 25]]);
}

#[test]
fn reading_18_runs_of_equal_points_count_as_one() {
    let once = [(0, 0), (20, 0), (20, 20)];
    let again = [
        (0, 0),
        (0, 0),
        (20, 0),
        (20, 0),
        (20, 0),
        (20, 20),
        (20, 20),
    ];
    for style in [BEVEL, round(BEVEL), closed(BEVEL), closed(round(BEVEL))] {
        assert_eq!(bodies(&once, style), bodies(&again, style));
    }
}

#[test]
fn reading_18_radius_0_and_1_give_no_edges() {
    for radius in [0, 1] {
        for style in [BEVEL, closed(round(BEVEL))] {
            let style = Style { radius, ..style };
            let drawing = walk(&points(&[(0, 0), (20, 0), (20, 20)]), 1, style);
            assert_eq!(drawing, KerbDrawing::default());
        }
    }
}

#[test]
fn reading_18_closed_kerbs() {
    let none = bodies(&[], closed(BEVEL));
    assert_eq!(bodies(&[(3, 4)], closed(BEVEL)), none);
    assert_eq!(bodies(&[(3, 4), (3, 4)], closed(BEVEL)), none);
    assert_eq!(bodies(&[(3, 4), (3, 4)], BEVEL), none);

    // There and back: two sections, two joins, no caps.
    let [sides, joins, caps] = bodies(&[(0, 0), (20, 0)], closed(BEVEL));
    assert_eq!(
        sides,
        [
            [20, 5, 0, 5],
            [0, -5, 20, -5],
            [0, -5, 20, -5],
            [20, 5, 0, 5],
        ]
    );
    assert_eq!(
        joins,
        [
            [20, -5, 20, 0],
            [20, 0, 20, 5],
            [20, -5, 20, 5],
            [0, 5, 0, 0],
            [0, 0, 0, -5],
            [0, 5, 0, -5],
        ]
    );
    assert_eq!(caps, [[0; 4]; 0]);

    // The last point is the first: no closing section, but a closing join.
    let open = [(0, 0), (40, 0), (0, 40)];
    let back = [(0, 0), (40, 0), (0, 40), (0, 0)];
    assert_eq!(bodies(&open, closed(BEVEL)), bodies(&back, closed(BEVEL)));
    assert_eq!(bodies(&back, BEVEL)[0], bodies(&back, closed(BEVEL))[0]);
    assert_eq!(bodies(&back, BEVEL)[1].len(), 6);
    assert_eq!(bodies(&back, closed(BEVEL))[1].len(), 9);
}

/// The ends and the directions of the outer side of a joint at the origin.
fn outer(line: &[(i64, i64)], style: Style) -> (Point, Point, Point, Point) {
    let sections = sections(&points(line), style);
    let (from, to) = (sections[0].b_right, sections[1].a_right);
    (from, to, direction(from), direction(to))
}

/// Roots are cut short, so that contacts of sections on one line can differ.
#[test]
fn a_round_join_is_one_edge_where_its_directions_turn_back_or_not_at_all() {
    let table: [(&[(i64, i64)], i64); 2] = [
        (&[(-1, -1), (0, 0), (3, 3)], 53062),
        (
            &[(12618389, -4546650), (0, 0), (-37855167, 13639950)],
            16285287,
        ),
    ];
    for ((line, radius), turn) in table.into_iter().zip([0, -23761393404]) {
        let style = Style {
            radius,
            ..round(BEVEL)
        };
        let (from, to, start, end) = outer(line, style);
        assert_ne!(from, to);
        assert_eq!(start.cross(end), turn);
        assert!(start.dot(end) > 0);
        let drawing = walk(&points(line), 8, style);
        let single = [from.x as i32, from.y as i32, to.x as i32, to.y as i32];
        assert_eq!(drawing.counts, [4, 3, 2]);
        assert_eq!(drawing.edges[6], single);
    }
}

/// Nor does a half turn end short where the contacts lie past it.
#[test]
fn a_half_turn_goes_round_though_its_ends_turn_back() {
    let line = [(-19804, 124641), (0, 0), (-59412, 373923)];
    let style = Style {
        radius: 127040236,
        ..round(BEVEL)
    };
    let (_, _, start, end) = outer(&line, style);
    assert!(start.cross(end) < 0 && start.dot(end) < 0);
    let drawing = walk(&points(&line), 1, style);
    assert_eq!(drawing.counts, [4, 2 + 4, 2]);
}

#[test]
fn a_kept_kerb_in_words() {
    let kerb = points(&[(0, 0), (20, 0)]);
    let expected: Vec<i32> = vec![
        1, 1, 3, 2, 4, 5, 0, 0, 0, 0, 20, 0, 2, 0, 2, 20, 5, 0, 5, 0, -5, 20, -5, 0, 5, 0, -5, 20,
        -5, 20, 5,
    ];
    let expected: Vec<u32> = expected.iter().map(|&word| word as u32).collect();
    assert_eq!(kerb_words(&kerb, 3, BEVEL), expected);
    let bytes = kerb_bytes(&kerb, 3, BEVEL);
    assert_eq!(bytes.len(), 44 + 8 * 2 + 16 * 4);
    let mut room = [9; 130];
    let reply = keep_kerb(&lent(&kerb), 3, [5, 0, 0], &mut room);
    assert_eq!(reply, Reply::new(0, 124));
    assert_eq!(room[..124], bytes);
    assert_eq!(room[124..], [9; 6]);
    let mut room = [9; 18];
    let reply = draw_kerb(&lent(&kerb), 3, [5, 0, 0], &mut room);
    assert_eq!(reply, Reply::new(0, 4));
    assert_eq!(room[..4], [20, 5, 0, 5]);
    assert_eq!(room[12..], [20, -5, 20, 5, 9, 9]);
}

#[test]
fn every_reply_of_draw_and_keep_in_order() {
    let far = 268435457;
    let big = vec![far; 2 * 4097];
    let kerb: &[i32] = &[0, 0, 20, 0];
    let table: [(&[i32], u32, [u32; 3], Reply); 19] = [
        (&big[..8193], 9, [u32::MAX; 3], Reply::new(1, 8193)),
        (&[7], 1, [5, 0, 0], Reply::new(1, 1)),
        (&big, 1, [u32::MAX; 3], Reply::new(3, 1)),
        (kerb, 1, [5, 0, 0], Reply::new(3, 1)),
        (&big, 9, [u32::MAX; 3], Reply::new(3, 9)),
        (&big, 0, [u32::MAX; 3], Reply::new(3, 0)),
        (&big, 8, [far as u32, 2, 2], Reply::new(11, 5)),
        (&big, 8, [u32::MAX, 0, 0], Reply::new(11, 5)),
        (&big, 8, [5, 2, 2], Reply::new(11, 6)),
        (&big, 8, [5, 256, 0], Reply::new(11, 6)),
        (&big, 8, [1, 1, 2], Reply::new(11, 7)),
        (&big, 8, [1, 1, u32::MAX], Reply::new(11, 7)),
        (&big, 8, [1, 1, 1], Reply::new(2, 4097)),
        (&big[..8192], 8, [1, 1, 1], Reply::new(4, 0)),
        (&[0, 0, 0, -far], 2, [1, 0, 0], Reply::new(4, 1)),
        (kerb, 2, [1, 0, 0], Reply::new(18, 2)),
        (kerb, 2, [0, 1, 1], Reply::new(18, 2)),
        (&[3, 4, 3, 4, 3, 4], 2, [5, 1, 1], Reply::new(18, 3)),
        (&[3, 4], 2, [5, 0, 0], Reply::new(18, 1)),
    ];
    for (kerb, grade, style, expected) in table {
        for room in [0, 59, 60, 100] {
            let (mut numbers, mut bytes) = (vec![7; room], vec![7; room]);
            assert_eq!(draw_kerb(kerb, grade, style, &mut numbers), expected);
            assert_eq!(keep_kerb(kerb, grade, style, &mut bytes), expected);
            assert!(numbers.iter().all(|&number| number == 7));
            assert!(bytes.iter().all(|&byte| byte == 7));
        }
    }
    let widest = [268435456, 1, 1];
    assert_eq!(draw_kerb(kerb, 2, widest, &mut []).reply, 5);
    let draw = |room: usize| draw_kerb(kerb, 2, [5, 0, 0], &mut vec![0; room]);
    assert_eq!(draw(15), Reply::new(5, 4));
    assert_eq!(draw(16), Reply::new(0, 4));
    let keep = |room: usize| keep_kerb(kerb, 2, [5, 0, 0], &mut vec![0; room]);
    assert_eq!(keep(123), Reply::new(5, 124));
    assert_eq!(keep(124), Reply::new(0, 124));
    assert_eq!(
        keep_kerb(&[], 2, [0, 0, 1], &mut [0; 43]),
        Reply::new(5, 44)
    );
    assert_eq!(
        keep_kerb(&[], 2, [0, 0, 1], &mut [0; 44]),
        Reply::new(0, 44)
    );
    assert_eq!(draw_kerb(&[], 2, [9, 0, 1], &mut []), Reply::new(0, 0));
}

/// A store of these words, and `more` zero bytes after them.
fn store(words: &[u32], more: usize) -> Vec<u8> {
    let mut bytes: Vec<u8> = words.iter().flat_map(|word| word.to_le_bytes()).collect();
    bytes.resize(bytes.len() + more, 0);
    bytes
}

#[test]
fn every_reply_of_read_and_replace_in_order() {
    let far = 268435457;
    let sound = kerb_words(&points(&[(0, 0), (20, 0)]), 1, BEVEL);
    let mut other = sound.clone();
    other[30] ^= 1 << 16;
    let mut counts = sound.clone();
    counts[12] += 1;
    counts[13] = 0u32.wrapping_sub(1);
    let table = [
        (store(&[1, 1, 9, 4097, 0, far, 2, 2, 0, 0], 3), (6, 0)),
        (store(&[2, 1, 9, 4097, 0, far, 2, 2, 0, 0], 4), (6, 0)),
        (store(&[1, 2, 9, 4097, 0, far, 2, 2, 0, 0], 4), (7, 2)),
        (store(&[1, 1, 9, 4097, 0, far, 2, 2, 0, 0], 4), (3, 9)),
        (store(&[1, 1, 8, 4097, 0, far, 2, 2, 0, 0], 4), (11, 5)),
        (store(&[1, 1, 8, 4097, 0, 5, 2, 2, 0, 0], 4), (11, 6)),
        (store(&[1, 1, 8, 4097, 0, 5, 1, 2, 0, 0], 4), (11, 7)),
        (store(&[1, 1, 8, 4097, 0, 5, 1, 1, 0, 0], 4), (2, 4097)),
        (store(&[1, 1, 8, 1, 0, 5, 1, 1, far, 0, 0, 0], 3), (6, 0)),
        (
            store(&[1, 1, 8, 1, u32::MAX, 5, 1, 1, far, 0, 0, 0, 0], 0),
            (6, 0),
        ),
        (store(&[1, 1, 8, 1, 0, 5, 1, 1, far, 0, 7, 0, 0], 0), (4, 0)),
        (store(&[1, 1, 8, 1, 0, 5, 1, 1, 0, 0, 7, 0, 0], 0), (8, 40)),
        (store(&[1, 1, 8, 1, 1, 5, 1, 1, 0, 0, 7, 0, 0], 16), (8, 16)),
        (store(&counts, 0), (8, 48)),
        (store(&other, 5), (8, 122)),
    ];
    for (store, (reply, number)) in table {
        let expected = Reply::new(reply, number);
        let mut numbers = [77; 2];
        assert_eq!(read(&store, &mut numbers), expected);
        assert_eq!(numbers, [77; 2]);
        let mut changed = store.clone();
        assert_eq!(replace(&mut changed, 7, i32::MAX, 0, 0), expected);
        assert_eq!(changed, store);
        assert_eq!(reach(&store, 7), expected);
    }
    let store = store(&sound, 3);
    assert_eq!(read(&store, &mut [77; 3]), Reply::new(5, 2));
    let mut changed = store.clone();
    for index in [0, 2] {
        let refused = replace(&mut changed, index, far as i32, 0, 0);
        assert_eq!(refused, Reply::new(12, 1));
        assert_eq!(reach(&store, index), Reply::new(12, 1));
    }
    assert_eq!(changed, store);
}

/// A random kerb: few points, at a random scale, points repeated now and then,
/// straight on or back now and then.
fn random_kerb(random: &mut Random) -> (Vec<Point>, Style) {
    let side = random.pick(&[3, 8, 30, 1000, 1 << 20, 1 << 28]);
    let mut kerb: Vec<Point> = Vec::new();
    for _ in 0..random.below(8) {
        let fresh = Point::new(random.between(-side, side), random.between(-side, side));
        let point = match kerb.len() {
            0 => fresh,
            n if random.chance(8) => kerb[n - 1],
            n if random.chance(8) => Point::new(fresh.x, kerb[n - 1].y),
            n if n > 1 && random.chance(8) => kerb[n - 2],
            _ => fresh,
        };
        kerb.push(point);
    }
    let most = random.pick(&[2, 6, 40, 3000, 1 << 28]);
    let style = [
        random.between(0, most) as u32,
        random.below(2) as u32,
        random.below(2) as u32,
    ];
    (kerb, Style::of(style).unwrap())
}

/// Demand 2 of kerbs: what is kept reads back, with what stands beside it.
#[test]
fn a_kerb_reads_back() {
    let mut random = Random::new(21);
    let (mut taken, mut refused) = (0, 0);
    for _ in 0..6_000 {
        let (kerb, style) = random_kerb(&mut random);
        let grade = random.between(2, 8) as u32;
        let bytes = kerb_bytes(&kerb, grade, style);
        let mut room = vec![0xA5; bytes.len() + 5];
        let kept = keep_kerb(&lent(&kerb), grade, style.words(), &mut room);
        let empty = !kerb.is_empty() && bytes.len() == 44 + 8 * kerb.len();
        if empty {
            refused += 1;
            assert_eq!(kept, Reply::new(18, kerb.len() as u64));
            assert!(room.iter().all(|&byte| byte == 0xA5));
        } else {
            taken += 1;
            assert_eq!(kept, Reply::new(0, bytes.len() as u64));
            assert_eq!(room[..bytes.len()], bytes);
            assert_eq!(room[bytes.len()..], [0xA5; 5]);
        }
        let mut numbers = vec![9; 2 * kerb.len() + 3];
        let expected = Reply {
            grade,
            kind: 1,
            style: style.words(),
            ..Reply::new(0, kerb.len() as u64)
        };
        let store = [bytes.as_slice(), &[7; 4]].concat();
        assert_eq!(read(&store, &mut numbers), expected);
        assert_eq!(numbers[..2 * kerb.len()], lent(&kerb));
        assert_eq!(numbers[2 * kerb.len()..], [9; 3]);
        let mut damaged = bytes.clone();
        let at = random.below(bytes.len() as u64) as usize;
        damaged[at] ^= 1 << random.below(8);
        let before = numbers.clone();
        if !empty && read(&damaged, &mut numbers).reply != 0 {
            assert_eq!(numbers, before);
        }
    }
    assert!(taken > 2_000 && refused > 500);
}

/// Request 12 of kerbs: at each point as many edges start as end.
#[test]
fn the_boundary_closes() {
    let mut random = Random::new(22);
    for _ in 0..6_000 {
        let (kerb, style) = random_kerb(&mut random);
        let mut balance: HashMap<(i32, i32), i32> = HashMap::new();
        for [ax, ay, bx, by] in walk(&kerb, random.between(1, 8) as u32, style).edges {
            assert_ne!((ax, ay), (bx, by));
            *balance.entry((ax, ay)).or_default() += 1;
            *balance.entry((bx, by)).or_default() -= 1;
        }
        assert!(balance.values().all(|&sum| sum == 0), "{kerb:?} {style:?}");
    }
}

/// A kerb's sections are those of document 01 between vertices of its radius.
#[test]
fn sections_are_those_of_equal_radii() {
    let style = Style { radius: 7, ..BEVEL };
    let kerb = points(&[(0, 0), (30, -40), (31, 9)]);
    let path = vertices(&[(0, 0, 7), (30, -40, 7), (31, 9, 7)]);
    let expected: Vec<[i32; 4]> = plain::chains::bodies(&path, 3)
        .iter()
        .flat_map(|body| body.iter().take(2).copied())
        .collect();
    assert_eq!(walk(&kerb, 3, style).edges[..4], expected[..4]);
}
