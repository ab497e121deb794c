//! The paths that READINGS.md names, with the bodies that it tells.

mod common;

use common::{counts, numbers, vertices};
use plain::calls::{keep, read, replace, Reply};
use plain::chains::bodies;
use plain::contacts::{Section, Vertex};
use plain::numbers::{integer_root, Point};
use plain::oldest::{coordinate, coordinate_back, export, import, width, width_back, Reason};

#[test]
fn reading_1_numbers_are_64_bits_wide() {
    let store: Vec<u8> = [1u32, 0, 1, 0, u32::MAX, 0]
        .iter()
        .flat_map(|word| word.to_le_bytes())
        .collect();
    assert_eq!(read(&store, &mut []), Reply::new(6, 0));
}

#[test]
fn reading_2_a_negative_radius_is_outside() {
    assert_eq!(keep(&[0, 0, -1], 2, &mut []), Reply::new(4, 0));
    let mut store = common::kept(&[(0, 0, 2)], 2);
    assert_eq!(replace(&mut store, 0, 0, 0, -1), Reply::new(4, 0));
}

#[test]
fn reading_3_the_circle_goes_by_its_own_radius() {
    let path = [(0, 0, 2), (10, 10, 2), (20, 20, 2)];
    let section = Section::new(vertices(&path)[0], vertices(&path)[1]);
    assert_eq!(section.a_left, Point::new(-1, 1));
    assert_eq!(integer_root(section.a_left.squared()), 1);
    assert_eq!(counts(&path, 1), [0, 5, 2, 3]);
}

#[test]
fn reading_21_inner_points_lie_as_far_out_as_the_start() {
    let path = [(0, 0, 2), (0, -3, 0)];
    assert_eq!(counts(&path, 1), [0, 6, 0]);
}

#[test]
fn reading_4_on_a_major_arc_directions_never_turn_left() {
    use plain::numbers::direction;
    let mut random = plain::random::Random::new(4);
    for _ in 0..50_000 {
        let bits = random.between(1, 28);
        let mut ray = || {
            let x = random.between(-(1 << bits), 1 << bits);
            Point::new(x, random.between(-(1 << bits), 1 << bits))
        };
        let (from, to) = (ray(), ray());
        if from.cross(to) < 0 {
            assert!(direction(from).cross(direction(to)) <= 0);
        }
    }
}

#[test]
fn reading_7_exceeding_is_strict() {
    let path = [(0, 0, 5), (20, 0, 5), (10, 0, 5)];
    let section = Section::new(vertices(&path)[0], vertices(&path)[1]);
    assert!(section.covers_circle(vertices(&path)[2]));
    let joined = bodies(&vertices(&path), 1);
    // No finish: the body begins with the section's own left side.
    assert_eq!(joined[2][0], [10, -5, 20, -5]);
    // One unit less is covered: the body begins with the end cap.
    let covered = bodies(&vertices(&[(0, 0, 5), (20, 0, 5), (10, 0, 4)]), 1);
    assert_eq!(covered[2][..4], bodies(&vertices(&path[..2]), 1)[2]);
}

#[test]
fn reading_7_after_a_break_nothing_covers() {
    // Drawn, broken (equal points), then a step into the first section.
    let path = vertices(&[(0, 0, 5), (20, 0, 5), (20, 0, 5), (10, 0, 2)]);
    let bodies = bodies(&path, 1);
    // The chain that starts Butt at vertex 2 draws its section and start cap.
    assert_eq!(bodies[3].len(), 3);
}

#[test]
fn reading_8_covering_is_not_symmetric() {
    let (point, disc) = (Vertex::new(0, 0, 0), Vertex::new(40, 0, 20));
    let inside = Vertex::new(12, 0, 1);
    assert!(Section::new(point, disc).covers_circle(inside));
    assert!(!Section::new(disc, point).covers_circle(inside));
}

#[test]
fn reading_9_a_finish_belongs_to_the_vertex_reached() {
    let bodies = bodies(&vertices(&[(0, 0, 10), (3, 0, 2)]), 1);
    assert_eq!(bodies[1][0], [10, 0, 6, 8]);
    // After thin steps a start cap stands at the section's own a.
    let path = vertices(&[(0, 0, 1), (10, 0, 1), (20, 0, 1), (40, 0, 2)]);
    let bodies = plain::chains::bodies(&path, 1);
    assert_eq!(bodies[1].len() + bodies[2].len(), 0);
    assert_eq!(bodies[3][2][..2], [20, 1]);
}

#[test]
fn reading_10_the_number_with_1_is_how_many_were_lent() {
    let lent = numbers(&[(0, 0, 2), (9, 9, 9)]);
    assert_eq!(keep(&lent[..5], 2, &mut []), Reply::new(1, 5));
}

#[test]
fn reading_11_a_wrong_length_shows_in_the_edge_total() {
    let mut store = common::kept(&[(0, 0, 10)], 1);
    store[16] = 7;
    assert_eq!(read(&store, &mut [0; 3]), Reply::new(8, 16));
    store[16] = 9;
    store.extend([0; 16]);
    assert_eq!(read(&store, &mut [0; 3]), Reply::new(8, 16));
}

#[test]
fn reading_12_halves_happen() {
    let path = vertices(&[(0, 0, 2), (2, 0, 1)]);
    let section = Section::new(path[0], path[1]);
    // The contact stands 0.5 beside its centre at x = 2.
    assert_eq!(section.b_left, Point::new(3, 1));
}

#[test]
fn reading_13_two_full_circles_in_one_join() {
    let path = [(0, -46, 267688968), (0, 0, 267688965), (0, 138, 267688956)];
    assert_eq!(counts(&path, 8)[2], 1616);
}

#[test]
fn reading_15_equality_breaks_a_chain() {
    assert_eq!(counts(&[(0, 0, 5), (3, 4, 10)], 1), [0, 8, 8]);
}

#[test]
fn forgetting_no_section_on_a_thin_step() {
    // Drawn, thin, drawn: the join compares centres that differ, so both caps
    // are single edges.
    let path = vertices(&[(0, 0, 5), (20, 0, 1), (40, 0, 1), (60, 0, 5)]);
    let bodies = bodies(&path, 1);
    assert_eq!(bodies[2].len(), 0);
    assert_eq!(bodies[3].len(), 4);
    assert_eq!(bodies[3][2], [20, -1, 20, 1]);
    assert_eq!(bodies[3][3], [40, 1, 40, -1]);
}

#[test]
fn reading_20_the_first_reason_that_applies() {
    assert_eq!(width(650.0), Ok(325));
    assert_eq!(width(-3.0), Err(Reason::NegativeWidth));
    assert_eq!(width(-2.5), Err(Reason::Fraction));
    assert_eq!(width(-1e30), Err(Reason::TooLarge));
    assert_eq!(width(3.0), Err(Reason::OddWidth));
    assert_eq!(width(536870912.0), Ok(268435456));
    assert_eq!(width(536870976.0), Err(Reason::TooLarge));
    assert_eq!(coordinate(-0.0), Ok(0));
    assert_eq!(coordinate(f32::NAN), Err(Reason::NotANumber));
    assert_eq!(coordinate(f32::NEG_INFINITY), Err(Reason::Infinite));
    assert_eq!(coordinate(-268435456.0), Ok(-268435456));
    assert_eq!(coordinate(268435488.0), Err(Reason::TooLarge));
    let reasons = [
        Reason::NotANumber,
        Reason::Infinite,
        Reason::Fraction,
        Reason::TooLarge,
        Reason::NegativeWidth,
        Reason::OddWidth,
    ];
    assert_eq!(reasons.map(|reason| reason as u32), [1, 2, 3, 4, 5, 6]);
}

#[test]
fn reading_20_only_exact_floats_are_written() {
    assert_eq!(coordinate_back(16777216), Some(16777216.0));
    assert_eq!(coordinate_back(16777217), None);
    assert_eq!(coordinate_back(268435488), None);
    assert_eq!(width_back(8388609), Some(16777218.0));
    assert_eq!(width_back(16777217), None);
    assert_eq!(width_back(-1), None);
    assert_eq!(width_back(268435456), Some(536870912.0));
    assert_eq!(import(&[0.0, 0.0, 2.0], &mut [0; 2]), Reply::new(5, 1));
    assert_eq!(import(&[0.0, 0.5, 3.0], &mut []), Reply::new(13, 1));
    assert_eq!(export(&[0, 0, -1, 0], &mut []), Reply::new(1, 4));
    let mut room = [7.0; 4];
    assert_eq!(export(&[1, -2, 3], &mut room), Reply::new(0, 1));
    assert_eq!(room, [1.0, -2.0, 6.0, 7.0]);
}
