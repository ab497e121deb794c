//! What differs between two sheets of one kind and edition with as many vertices.

use crate::calls;
use crate::failure::Failure;
use crate::sheet::Sheet;
use sehmelir::Form;
use sehmelir::Sheet::{After, Before};
use std::iter::zip;

/// One mark a vertex, one a point number and one a body, in the sheets' order:
/// whether it differs.
pub struct Changes {
    pub vertices: Vec<bool>,
    pub numbers: Vec<bool>,
    pub bodies: Vec<bool>,
}

impl Changes {
    /// What differs between two sheets, if they are of one kind and of one edition
    /// and have as many vertices.
    pub fn between(before: &Sheet, after: &Sheet) -> Result<Changes, Failure> {
        let kerbs = [before, after].map(|sheet| matches!(sheet.form(), Form::Kerb(_)));
        if kerbs[0] != kerbs[1] {
            return Err(Failure::UnlikeForms);
        }
        let (first, second) = (before.edition(), after.edition());
        if first != second {
            return Err(Failure::UnlikeEditions(first, second));
        }
        let (old, new) = (before.vertices(), after.vertices());
        if old.len() != new.len() {
            return Err(Failure::Unlike(old.len(), new.len()));
        }
        let vertices: Vec<bool> = zip(old, new).map(|(old, new)| old != new).collect();
        let numbers = zip(before.numbers()?, after.numbers()?)
            .map(|(old, new)| old != new)
            .collect();
        let mut bodies: Vec<bool> = zip(before.bodies(), after.bodies())
            .map(|(old, new)| before.edge_bytes(old.clone()) != after.edge_bytes(new.clone()))
            .collect();
        if !kerbs[0] && before.grade() == after.grade() && count(&vertices, true) == 1 {
            ask(before, after, &mut bodies)?;
        }
        Ok(Changes {
            vertices,
            numbers,
            bodies,
        })
    }
}

/// Each body that is marked, as the library hands it over of either sheet. That
/// checks both sheets whole, so it is asked where one vertex alone differs: there
/// few bodies do, and of them something is promised.
fn ask(before: &Sheet, after: &Sheet, bodies: &mut [bool]) -> Result<(), Failure> {
    let (before, after) = (before.bytes(), after.bytes());
    for (vertex, mark) in bodies.iter_mut().enumerate().filter(|(_, mark)| **mark) {
        let old = calls::side(before, after, Before, vertex)?;
        *mark = old != calls::side(before, after, After, vertex)?;
    }
    Ok(())
}

/// The first place that is marked, of those from one on.
pub fn first_marked(marks: &[bool], from: usize) -> Option<usize> {
    let later = marks.get(from..)?;
    later
        .iter()
        .position(|&mark| mark)
        .map(|place| from + place)
}

/// How many marks are as wanted.
pub fn count(marks: &[bool], wanted: bool) -> usize {
    marks.iter().filter(|&&mark| mark == wanted).count()
}

#[cfg(test)]
mod tests {
    use super::{first_marked, Changes};
    use crate::calls;
    use crate::failure::Failure;
    use crate::sheet::Sheet;

    fn sheet(path: &[[i32; 3]], grade: u32) -> Sheet {
        Sheet::sound(calls::keep(path.as_flattened(), grade).unwrap()).unwrap()
    }

    #[test]
    fn a_moved_vertex_changes_its_bodies() {
        let before = sheet(&[[0, 0, 5], [20, 0, 5], [40, 0, 5], [60, 0, 5]], 2);
        let after = sheet(&[[0, 9, 5], [20, 0, 5], [40, 0, 5], [60, 0, 5]], 2);
        let changes = Changes::between(&before, &after).unwrap();
        assert_eq!(changes.vertices, [true, false, false, false]);
        assert_eq!(changes.numbers, [false; 4]);
        assert_eq!(changes.bodies, [false, true, true, false, false]);
    }

    #[test]
    fn sheets_with_other_numbers_of_vertices_are_unlike() {
        let (none, one) = (sheet(&[], 2), sheet(&[[0, 0, 5]], 2));
        let unlike = Changes::between(&none, &one);
        assert!(matches!(unlike, Err(Failure::Unlike(0, 1))));
    }

    #[test]
    fn a_mark_is_found_from_a_place_on() {
        let marks = [true, false, true];
        assert_eq!(first_marked(&marks, 1), Some(2));
        assert_eq!(first_marked(&marks, 3), None);
        assert_eq!(first_marked(&marks, 9), None);
    }
}
