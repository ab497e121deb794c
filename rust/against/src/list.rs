//! A path and its collapsed edges as a line of text:
//! `(0,0,5) (20,0,5): (20,5)-(0,5) (0,-5)-(20,-5) (0,5)~(0,-5) (20,-5)~(20,5)`,
//! where `-` is a straight edge and `~` a run of arc edges, from its first
//! start to its last end. A path that document 01 sets aside has `set aside`
//! in the place of its edges.

use plain::arcs::Edge;

/// What stands beside a path.
#[derive(Clone, Debug, PartialEq, Eq)]
pub enum Beside {
    Edges(Vec<(Edge, bool)>),
    SetAside,
}

const SET_ASIDE: &str = "set aside";

/// A path as text.
pub fn path_text(path: &[[i32; 3]]) -> String {
    let vertex = |[x, y, radius]: &[i32; 3]| format!("({x},{y},{radius})");
    let words: Vec<String> = path.iter().map(vertex).collect();
    words.join(" ")
}

/// Collapsed edges as text.
pub fn edges_text(edges: &[(Edge, bool)]) -> String {
    let edge = |&([ax, ay, bx, by], arc): &(Edge, bool)| {
        let mark = if arc { '~' } else { '-' };
        format!("({ax},{ay}){mark}({bx},{by})")
    };
    let words: Vec<String> = edges.iter().map(edge).collect();
    words.join(" ")
}

/// A line of the list.
pub fn line(path: &[[i32; 3]], beside: &Beside) -> String {
    let beside = match beside {
        Beside::Edges(edges) => edges_text(edges),
        Beside::SetAside => SET_ASIDE.to_string(),
    };
    format!("{}: {beside}", path_text(path))
        .trim_end()
        .to_string()
}

/// The path of a line and what stands beside it, if it is a line of the list.
pub fn parse(line: &str) -> Option<(Vec<[i32; 3]>, Beside)> {
    let (path, beside) = line.split_once(':')?;
    let path: Option<Vec<[i32; 3]>> = path.split_whitespace().map(numbers).collect();
    let beside = if beside.trim() == SET_ASIDE {
        Beside::SetAside
    } else {
        let edges: Option<Vec<_>> = beside.split_whitespace().map(edge).collect();
        Beside::Edges(edges?)
    };
    Some((path?, beside))
}

/// N numbers between brackets, with commas.
fn numbers<const N: usize>(word: &str) -> Option<[i32; N]> {
    let inside = word.strip_prefix('(')?.strip_suffix(')')?;
    let numbers: Option<Vec<i32>> = inside.split(',').map(|n| n.parse().ok()).collect();
    numbers?.try_into().ok()
}

fn edge(word: &str) -> Option<(Edge, bool)> {
    let middle = word.find(')')? + 1;
    let (from, rest) = word.split_at(middle);
    let (arc, to) = match rest.strip_prefix('~') {
        Some(to) => (true, to),
        None => (false, rest.strip_prefix('-')?),
    };
    let ([ax, ay], [bx, by]) = (numbers(from)?, numbers(to)?);
    Some(([ax, ay, bx, by], arc))
}

#[cfg(test)]
mod tests {
    use super::*;

    #[test]
    fn a_line_reads_back() {
        let lines = [
            "(0,0,5) (20,0,5): (20,5)-(0,5) (0,-5)-(20,-5) (0,5)~(0,-5) (20,-5)~(20,5)",
            ":",
            "(0,0,1):",
            "(0,-46,267688968) (0,0,267688965) (0,138,267688956): set aside",
        ];
        for text in lines {
            let (path, beside) = parse(text).unwrap();
            assert_eq!(line(&path, &beside), text);
        }
        for text in ["", "(0,0): ", "(0,0,1): (1,2)", "(0,0,1): (1,2)+(3,4)"] {
            assert_eq!(parse(text), None);
        }
    }
}
