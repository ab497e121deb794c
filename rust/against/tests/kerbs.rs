//! Plain's kerbs against the list of what the crate's own text gave.

use against::kerbs::{plain_shape, random, small, small_count};
use against::kerbs_list::{parse, sides};

#[test]
fn plain_gives_the_list() {
    let (mut right, mut left, mut either) = (0, 0, 0);
    for (line, text) in include_str!("../kerbs.txt").lines().enumerate() {
        if text.starts_with('#') {
            continue;
        }
        let (kerb, due) = parse(text).unwrap_or_else(|| panic!("line {} is no kerb", line + 1));
        for grade in 1..=8 {
            let given = sides(&plain_shape(&kerb, grade));
            assert_eq!(given, due, "line {} at grade {grade}: {text}", line + 1);
        }
        let count = |side| due.iter().filter(|&&given| given == side).count();
        right += count("right");
        left += count("left");
        either += count("either");
    }
    assert!(right >= 100 && left >= 100 && either >= 10);
}

/// Plain's edges are sections, joins and caps in this order, of every kerb.
#[test]
fn kerbs_stand_in_order() {
    for number in 0..20_000 {
        let kerb = random(3, number);
        let grade = 1 + (number / 16 % 2) as u32;
        assert!(plain_shape(&kerb, grade).is_some(), "{kerb:?}");
    }
    for number in (0..small_count()).step_by(17) {
        let kerb = small(number);
        assert!(plain_shape(&kerb, 1).is_some(), "{kerb:?}");
    }
}
