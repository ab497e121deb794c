//! Plain against the list of what the crate's own text gave.

use against::labels::labelled;
use against::list::{parse, Beside};
use against::paths;
use against::runs::collapsed;

#[test]
fn plain_gives_the_list() {
    let mut compared = 0;
    let mut set_aside = 0;
    for (line, text) in include_str!("../list.txt").lines().enumerate() {
        if text.starts_with('#') {
            continue;
        }
        let (path, beside) = parse(text).unwrap_or_else(|| panic!("line {} is no path", line + 1));
        for grade in 1..=8 {
            let labelled = labelled(&path, grade);
            let given = match labelled.set_aside() {
                true => Beside::SetAside,
                false => Beside::Edges(collapsed(&labelled.edges)),
            };
            assert_eq!(given, beside, "line {} at grade {grade}: {text}", line + 1);
        }
        match beside {
            Beside::Edges(_) => compared += 1,
            Beside::SetAside => set_aside += 1,
        }
    }
    assert!(compared >= 300, "{compared} paths with edges");
    assert!(set_aside >= 1, "{set_aside} paths set aside");
}

/// The kinds stand on plain's own edges: `labelled` stops if they do not.
#[test]
fn labels_stand_on_plains_edges() {
    for number in 0..20_000 {
        let (_, path) = paths::random(3, number);
        labelled(&path, 1 + (number / 16 % 2) as u32);
    }
}
