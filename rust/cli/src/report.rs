//! The report of two sheets: vertices, bodies, edges, and what follows.

use crate::changes::{count, Changes};
use crate::failure::Failure;
use crate::kerbs::styles;
use crate::ranges::{counted, number, places};
use crate::sentence::{self, Sentence};
use crate::sheet::Sheet;
use sehmelir::{Form, Style};

/// What differs between two sheets, and what cannot.
pub fn of(before: &Sheet, after: &Sheet) -> Result<String, Failure> {
    let changes = Changes::between(before, after)?;
    if let (Form::Kerb(old), Form::Kerb(new)) = (before.form(), after.form()) {
        return Ok(of_kerbs(before, after, [old, new], &changes));
    }
    let facts = format!(
        "{}\n{}\nedges: {} before, {} after\n{}",
        vertices(&changes.vertices),
        bodies(&changes.bodies),
        number(before.edge_count()),
        number(after.edge_count()),
        numbers(&changes.numbers),
    );
    if before.grade() != after.grade() {
        let grades = format!("{} before and {} after", before.grade(), after.grade());
        return Ok(format!(
            "{facts}the grades differ, {grades}: \
             nothing is promised of bodies that are drawn at two grades\n"
        ));
    }
    match sentence::of(after, &changes)? {
        Sentence::Holds(told) => Ok(format!("{facts}{told}\n")),
        Sentence::Fault(told) => Err(Failure::Fault(format!("{facts}{told}"))),
    }
}

/// What differs between two kerbs.
fn of_kerbs(before: &Sheet, after: &Sheet, [old, new]: [Style; 2], changes: &Changes) -> String {
    let grade = match (before.grade(), after.grade()) {
        (old, new) if old == new => format!("grade: {new} on each sheet"),
        (old, new) => format!("grade: {old} before, {new} after"),
    };
    format!(
        "{}\n{}\n{grade}\n{}\nedges: {} before, {} after\n\
         of a kerb's bodies nothing is promised\n",
        vertices(&changes.vertices),
        styles(old, new),
        kerb_bodies(&changes.bodies),
        number(before.edge_count()),
        number(after.edge_count()),
    )
}

/// Which of a kerb's three bodies hold other edges.
fn kerb_bodies(marks: &[bool]) -> String {
    let names = ["lines", "corners", "ends"];
    let some = |wanted: bool| -> Vec<&str> {
        let marked = names.iter().zip(marks);
        let wanted = marked.filter(|(_, &mark)| mark == wanted);
        wanted.map(|(&name, _)| name).collect()
    };
    match (some(true), some(false)) {
        (other, _) if other.is_empty() => "bodies: all three hold the same edges".to_string(),
        (_, same) if same.is_empty() => "bodies: all three hold other edges".to_string(),
        (other, same) => format!(
            "bodies: {} hold other edges; {} hold the same",
            other.join(" and "),
            same.join(" and ")
        ),
    }
}

/// How many vertices there are, and which differ.
fn vertices(marks: &[bool]) -> String {
    let differing = counted(count(marks, true), "differs", "differ");
    let which = listed(places(marks, true));
    format!(
        "vertices: {} on each sheet; {differing}{which}",
        number(marks.len())
    )
}

/// How many point numbers differ and whose, a line, if any do.
fn numbers(marks: &[bool]) -> String {
    let differing = count(marks, true);
    if differing == 0 {
        return String::new();
    }
    let told = counted(differing, "differs", "differ");
    format!("point numbers: {told}{}\n", listed(places(marks, true)))
}

/// How many bodies there are, which hold other edges and which the same.
fn bodies(marks: &[bool]) -> String {
    let total = number(marks.len());
    let other = some_bodies(marks, true, "holds other edges", "hold other edges");
    let same = some_bodies(marks, false, "holds the same", "hold the same");
    format!("bodies: {total}, the closing one among them; {other}; {same}")
}

/// The bodies whose marks are as wanted, the closing one by its name.
pub fn some_bodies(marks: &[bool], wanted: bool, one: &str, many: &str) -> String {
    let (closing, others) = match marks {
        [others @ .., closing] => (*closing == wanted, others),
        [] => (false, marks),
    };
    let mut which = places(others, wanted);
    if closing {
        which.push("closing".to_string());
    }
    counted(count(marks, wanted), one, many) + &listed(which)
}

/// Places after a colon, if there are any.
fn listed(places: Vec<String>) -> String {
    if places.is_empty() {
        return String::new();
    }
    format!(": {}", places.join(", "))
}

#[cfg(test)]
mod tests {
    use super::{bodies, kerb_bodies, numbers, vertices};

    #[test]
    fn a_kerbs_bodies_are_named() {
        assert_eq!(
            kerb_bodies(&[false; 3]),
            "bodies: all three hold the same edges"
        );
        assert_eq!(
            kerb_bodies(&[true, true, false]),
            "bodies: lines and corners hold other edges; ends hold the same"
        );
    }

    #[test]
    fn nothing_is_listed_where_nothing_is() {
        assert_eq!(vertices(&[]), "vertices: 0 on each sheet; 0 differ");
        assert_eq!(
            bodies(&[false]),
            "bodies: 1, the closing one among them; 0 hold other edges; 1 holds the same: closing"
        );
    }

    #[test]
    fn point_numbers_that_differ_are_told() {
        assert_eq!(numbers(&[false; 3]), "");
        assert_eq!(
            numbers(&[false, true, true, false, true]),
            "point numbers: 3 differ: 1 to 2, 4\n"
        );
    }

    #[test]
    fn the_closing_body_is_named() {
        assert_eq!(
            bodies(&[false, true, true]),
            "bodies: 3, the closing one among them; 2 hold other edges: 1, closing; 1 holds the same: 0"
        );
    }
}
