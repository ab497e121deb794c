//! Two sheets side by side: the bodies of one vertex, edge by edge.

use crate::arguments::Siding;
use crate::calls;
use crate::failure::Failure;
use crate::ranges::{counted, number};
use crate::sheet::{self, edges_of, sheet_of};
use crate::words::whole;
use sehmelir::Sheet::{After, Before};

/// What stands where one body has no edge and the other has one.
const NONE: &str = "-";

/// The two bodies of a vertex, as text.
pub fn run(asked: Siding) -> Result<(), Failure> {
    let due = Failure::Words("VERTEX is a whole number, from 0 on");
    let vertex = whole(asked.vertex.as_encoded_bytes()).ok_or(due)?;
    let (before, after) = (sheet_of(Some(asked.before))?, sheet_of(Some(asked.after))?);
    asked
        .destination
        .write(told(&before, &after, vertex)?.as_bytes())
}

/// The bodies that a number has in two sheets: what each is, how many places
/// differ, and a line a place.
fn told(before: &sheet::Sheet, after: &sheet::Sheet, vertex: usize) -> Result<String, Failure> {
    let [old, new] = [Before, After].map(|which| {
        let part = calls::side(before.bytes(), after.bytes(), which, vertex);
        part.map(|part| edges_of(part).collect::<Vec<_>>())
    });
    let (old, new) = (old?, new?);
    let places = old.len().max(new.len());
    let differing = (0..places).filter(|&place| old.get(place) != new.get(place));
    let differing = match differing.count() {
        0 => "nothing differs".to_string(),
        count => format!(
            "{}, marked *",
            counted(count, "place differs", "places differ")
        ),
    };
    let mut text = format!(
        "before: {}, {}\nafter: {}, {}\n{differing}\n",
        body(before, vertex),
        counted(old.len(), "edge", "edges"),
        body(after, vertex),
        counted(new.len(), "edge", "edges"),
    );
    for line in lines(&old, &new) {
        text.push_str(&line);
        text.push('\n');
    }
    Ok(text)
}

/// What the body of this number is in a sheet.
fn body(sheet: &sheet::Sheet, vertex: usize) -> String {
    if vertex == sheet.vertices().len() {
        return "the closing body".to_string();
    }
    format!("body {}", number(vertex))
}

/// A line a place: a mark where the edges differ, the place, the edge before and
/// the edge after, below one another.
fn lines(old: &[[i32; 4]], new: &[[i32; 4]]) -> Vec<String> {
    let places = old.len().max(new.len());
    let spelt = |edges: &[[i32; 4]], place: usize| match edges.get(place) {
        Some(edge) => edge.map(|number| number.to_string()).join(" "),
        None => NONE.to_string(),
    };
    let wide = |edges| {
        (0..places)
            .map(move |place| spelt(edges, place).len())
            .max()
    };
    let (digits, width) = (places.to_string().len(), wide(old).unwrap_or(0));
    let line = |place: usize| {
        let mark = if old.get(place) == new.get(place) {
            ' '
        } else {
            '*'
        };
        let (old, new) = (spelt(old, place), spelt(new, place));
        format!("{mark} {place:>digits$}  {old:<width$}  {new}")
    };
    (0..places).map(line).collect()
}

#[cfg(test)]
mod tests {
    use super::{lines, told};
    use crate::calls;
    use crate::failure::Failure;
    use crate::sheet::Sheet;

    fn sheet(path: &[[i32; 3]]) -> Sheet {
        Sheet::sound(calls::keep(path.as_flattened(), 2).unwrap()).unwrap()
    }

    #[test]
    fn what_differs_is_marked() {
        let (one, two) = ([1, 2, 3, 4], [-10, 20, 30, 40]);
        let due = ["  0  1 2 3 4       1 2 3 4", "* 1  -10 20 30 40  -"];
        assert_eq!(lines(&[one, two], &[one]), due);
        assert_eq!(lines(&[], &[two]), ["* 0  -  -10 20 30 40"]);
        assert_eq!(lines(&[], &[]), [""; 0]);
    }

    #[test]
    fn bodies_are_named() {
        let before = sheet(&[[0, 0, 5], [20, 0, 5]]);
        let after = sheet(&[[0, 0, 5], [20, 0, 5], [40, 0, 5]]);
        let first = told(&before, &after, 0).unwrap();
        assert_eq!(
            first,
            "before: body 0, 0 edges\nafter: body 0, 0 edges\nnothing differs\n"
        );
        let last = told(&before, &after, 2).unwrap();
        assert!(last.starts_with("before: the closing body, "));
        assert!(last.contains("\nafter: body 2, "));
        let refused = told(&before, &after, 3);
        assert!(matches!(refused, Err(Failure::NoBody(3))));
    }
}
