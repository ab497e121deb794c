//! Runs of arc edges made into one.

use crate::labels::Kind;
use plain::arcs::Edge;

/// Against the Rust: "each end-to-end run of arc edges becomes its first start
/// and last end". True marks such a run, false a straight edge.
pub fn collapsed(edges: &[(Edge, Kind)]) -> Vec<(Edge, bool)> {
    let labels = edges.iter().map(|&(edge, kind)| (edge, kind.is_arc()));
    merged(labels, |arc| arc)
}

/// The same, but only edges of the same kind make a run, and it keeps its kind:
/// a closer comparison than document 01 asks for.
pub fn collapsed_by_kind(edges: &[(Edge, Kind)]) -> Vec<(Edge, Kind)> {
    merged(edges.iter().copied(), Kind::is_arc)
}

fn merged<L: Copy + PartialEq>(
    edges: impl Iterator<Item = (Edge, L)>,
    is_arc: impl Fn(L) -> bool,
) -> Vec<(Edge, L)> {
    let mut runs: Vec<(Edge, L)> = Vec::new();
    for (edge, label) in edges {
        match runs.last_mut() {
            Some((run, of)) if is_arc(label) && *of == label && run[2..] == edge[..2] => {
                run[2..].copy_from_slice(&edge[2..]);
            }
            _ => runs.push((edge, label)),
        }
    }
    runs
}

#[cfg(test)]
mod tests {
    use super::*;
    use Kind::*;

    #[test]
    fn arc_edges_end_to_end_become_one() {
        let edges = [
            ([0, 0, 1, 0], CapArc),
            ([1, 0, 2, 0], CapArc),
            ([2, 0, 3, 0], JoinArc),
            ([3, 0, 4, 0], SectionBoundary),
            ([4, 0, 5, 0], SectionBoundary),
            ([5, 0, 6, 0], CircleArc),
            ([7, 0, 8, 0], CircleArc),
        ];
        let expected = [
            ([0, 0, 3, 0], true),
            ([3, 0, 4, 0], false),
            ([4, 0, 5, 0], false),
            ([5, 0, 6, 0], true),
            ([7, 0, 8, 0], true),
        ];
        assert_eq!(collapsed(&edges), expected);
        let expected = [
            ([0, 0, 2, 0], CapArc),
            ([2, 0, 3, 0], JoinArc),
            ([3, 0, 4, 0], SectionBoundary),
            ([4, 0, 5, 0], SectionBoundary),
            ([5, 0, 6, 0], CircleArc),
            ([7, 0, 8, 0], CircleArc),
        ];
        assert_eq!(collapsed_by_kind(&edges), expected);
    }
}
