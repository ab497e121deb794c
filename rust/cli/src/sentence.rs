//! The sentence that follows where the sheets are of one grade and one vertex
//! alone differs: which bodies cannot change. How far the vertex reaches comes
//! from the library, which has it from the theorem.

use crate::changes::{count, first_marked, Changes};
use crate::failure::Failure;
use crate::ranges::{number, range};
use crate::sheet::Sheet;
use sehmelir::reach;

/// What follows of two sheets.
pub enum Sentence {
    /// This holds.
    Holds(String),
    /// A body breaks it, which would be a fault of this port or of a compiler.
    Fault(String),
}

/// What follows from what differs between two sheets of one grade.
pub fn of(after: &Sheet, changes: &Changes) -> Result<Sentence, Failure> {
    let Changes {
        vertices,
        numbers,
        bodies,
    } = changes;
    let Some(moved) = first_marked(vertices, 0) else {
        return Ok(unchanged(numbers, bodies));
    };
    if count(vertices, true) > 1 {
        let told = "more than one vertex differs: \
                    what cannot change is told only where one vertex was moved";
        return Ok(Sentence::Holds(told.to_string()));
    }
    let settled = reach(after.bytes(), moved)?;
    let kept = (settled + 1 < vertices.len()).then_some(settled + 1);
    if let Some(body) = broken(bodies, moved, kept) {
        return Ok(Sentence::Fault(fault(body, vertices.len())));
    }
    let reached = reached(moved, numbers.contains(&true), settled, vertices.len());
    let promise = promise(moved, kept);
    Ok(Sentence::Holds(format!("{reached}\n{promise}")))
}

/// What follows where no vertex differs, but for its point number.
fn unchanged(numbers: &[bool], bodies: &[bool]) -> Sentence {
    if bodies.contains(&true) {
        let told = "FAULT: no vertex differs, and yet a body holds other edges: \
                    this must not be, please report both sheets";
        return Sentence::Fault(told.to_string());
    }
    let told = match numbers.contains(&true) {
        true => "point numbers alone differ, and they draw nothing: every body is the same",
        false => "nothing differs: the two sheets are the same",
    };
    Sentence::Holds(told.to_string())
}

/// A body that cannot change and did: one before the moved vertex's, or one
/// from `kept` on.
fn broken(bodies: &[bool], moved: usize, kept: Option<usize>) -> Option<usize> {
    let early = first_marked(bodies, 0).filter(|&body| body < moved);
    early.or_else(|| first_marked(bodies, kept?))
}

/// What is said of such a body.
fn fault(body: usize, vertices: usize) -> String {
    let which = match body {
        closing if closing == vertices => "the closing body".to_string(),
        body => format!("body {}", number(body)),
    };
    format!("FAULT: {which} cannot change, and did: this must not be, please report both sheets")
}

/// How far the moved vertex reaches, whether or not point numbers differ too: to
/// the vertex `settled`, if there is one.
fn reached(moved: usize, numbered: bool, settled: usize, vertices: usize) -> String {
    let apart = if numbered {
        ", point numbers apart"
    } else {
        ""
    };
    let alone = format!("vertex {} alone differs{apart}, and", number(moved));
    let from = number(moved + 2);
    if settled >= vertices {
        return format!("{alone} no vertex from {from} on is reached by a drawn or broken step:");
    }
    let last = if settled + 1 == vertices {
        ", the last vertex,"
    } else {
        ""
    };
    format!(
        "{alone} {}{last} is the first vertex from {from} on that is reached by a drawn or broken step:",
        number(settled)
    )
}

/// Which bodies cannot change: those before the moved vertex's, and those from
/// `kept` on.
fn promise(moved: usize, kept: Option<usize>) -> String {
    let earlier = match moved {
        0 => String::new(),
        1 => "body 0".to_string(),
        moved => format!("bodies {}", range(0, moved - 1)),
    };
    let Some(from) = kept else {
        return match moved {
            0 => "no body is promised to stay as it was".to_string(),
            _ => {
                format!("{earlier} cannot change, and did not; of those after nothing is promised")
            }
        };
    };
    let and = match moved {
        0 => "bodies",
        1 => " and bodies",
        _ => " and",
    };
    format!(
        "{earlier}{and} from {} on, the closing body among them, cannot change, and did not",
        number(from)
    )
}

#[cfg(test)]
mod tests {
    use super::{broken, fault, promise, unchanged, Sentence};

    #[test]
    fn promises_name_what_they_hold_of() {
        assert_eq!(promise(0, None), "no body is promised to stay as it was");
        assert_eq!(
            promise(1, Some(4)),
            "body 0 and bodies from 4 on, the closing body among them, cannot change, and did not"
        );
        assert_eq!(
            promise(1412, None),
            "bodies 0 to 1,411 cannot change, and did not; of those after nothing is promised"
        );
    }

    #[test]
    fn a_body_that_cannot_change_and_did_is_a_fault() {
        let bodies = [false, true, false, true];
        assert_eq!(broken(&bodies, 2, None), Some(1));
        assert_eq!(broken(&bodies, 1, Some(2)), Some(3));
        assert_eq!(broken(&bodies, 1, None), None);
        assert!(fault(3, 3).starts_with("FAULT: the closing body"));
        assert!(fault(1, 3).starts_with("FAULT: body 1 "));
        assert!(matches!(unchanged(&[], &bodies), Sentence::Fault(_)));
    }
}
