//! Why edges are there, as text: a line an edge, `edge reason vertex place`, and
//! for a side `exact` or `rounded` for its start and for its end.

use crate::calls;
use crate::destination::Destination;
use crate::failure::Failure;
use crate::path_text::push_digits;
use crate::source::Source;
use crate::words::whole;
use clap::Args;
use sehmelir::{explain, Reason};
use std::ffi::OsString;
use std::path::PathBuf;

/// What explain takes.
#[derive(Args)]
pub struct Explaining {
    /// The number of the edge, from 0 on; without it every edge is told
    #[arg(allow_negative_numbers = true)]
    edge: Option<OsString>,
    /// The sheet, if not on standard input
    sheet: Option<PathBuf>,
    #[command(flatten)]
    destination: Destination,
}

/// Tells why one edge is there, or each of them.
pub fn run(asked: Explaining) -> Result<(), Failure> {
    let (edge, sheet) = named(asked.edge, asked.sheet)?;
    let text = Source::named(sheet).take(|sheet| match edge {
        Some(edge) => one(&sheet, edge),
        None => all(&sheet),
    })?;
    asked.destination.write(&text)
}

/// The edge and the sheet that are asked for. A word by itself is the sheet's
/// name, unless it is spelt as a number is.
fn named(
    edge: Option<OsString>,
    sheet: Option<PathBuf>,
) -> Result<(Option<usize>, Option<PathBuf>), Failure> {
    let Some(word) = edge else {
        return Ok((None, sheet));
    };
    let bytes = word.as_encoded_bytes();
    if sheet.is_none() && !is_digits(bytes.strip_prefix(b"-").unwrap_or(bytes)) {
        return Ok((None, Some(word.into())));
    }
    let due = Failure::Words("EDGE is a whole number, from 0 on");
    Ok((Some(whole(bytes).ok_or(due)?), sheet))
}

/// Whether a word is digits alone.
fn is_digits(word: &[u8]) -> bool {
    !word.is_empty() && word.iter().all(u8::is_ascii_digit)
}

/// The line of one edge of a sheet.
fn one(sheet: &[u8], edge: usize) -> Result<Vec<u8>, Failure> {
    let why = explain(sheet, edge)?;
    let mut text = Vec::new();
    let [start, end] = [why.start_exact, why.end_exact].map(usize::from);
    let numbers = [why.reason.number(), why.vertex, why.place, start, end];
    push_line(&mut text, edge, numbers);
    Ok(text)
}

/// The lines of all edges of a sheet.
fn all(sheet: &[u8]) -> Result<Vec<u8>, Failure> {
    let mut text = Vec::new();
    for (edge, numbers) in calls::list(sheet)?.into_iter().enumerate() {
        push_line(&mut text, edge, numbers);
    }
    Ok(text)
}

/// The line of an edge. All its numbers have at most 32 bits, as words of a sheet
/// do.
fn push_line(text: &mut Vec<u8>, edge: usize, numbers: [usize; 5]) {
    let [number, vertex, place, start, end] = numbers;
    let reason = reason(number);
    push_digits(text, edge as u32);
    text.push(b' ');
    text.extend_from_slice(reason.word().as_bytes());
    for number in [vertex, place] {
        text.push(b' ');
        push_digits(text, number as u32);
    }
    if reason.is_side() {
        for exact in [start, end] {
            let word: &[u8] = if exact == 1 { b" exact" } else { b" rounded" };
            text.extend_from_slice(word);
        }
    }
    text.push(b'\n');
}

/// The reason of a number that the library listed.
fn reason(number: usize) -> Reason {
    Reason::of(number).expect("the library lists the reasons that it has")
}

/// The reason of each edge of a sheet.
pub fn of_edges(sheet: &[u8]) -> Result<Vec<Reason>, Failure> {
    let listed = calls::list(sheet)?.into_iter();
    Ok(listed.map(|[number, ..]| reason(number)).collect())
}

#[cfg(test)]
mod tests {
    use super::{all, named, of_edges, one};
    use crate::calls;
    use crate::failure::Failure;
    use sehmelir::{Reason, Refusal};
    use std::path::PathBuf;

    #[test]
    fn a_line_an_edge() {
        let sheet = calls::keep(&[0, 0, 5, 20, 0, 5], 2).unwrap();
        let text = String::from_utf8(all(&sheet).unwrap()).unwrap();
        assert!(text.starts_with(
            "0 left-side 1 0 exact exact\n1 right-side 1 0 exact exact\n2 start-cap 1 0\n"
        ));
        assert!(text.ends_with("\n14 end-cap 2 5\n15 end-cap 2 6\n"));
        let lines = (0..16).map(|edge| one(&sheet, edge).unwrap());
        assert_eq!(lines.collect::<Vec<_>>().concat(), text.as_bytes());
        let reasons = of_edges(&sheet).unwrap();
        assert_eq!(reasons[8..10], [Reason::StartCap, Reason::EndCap]);
    }

    /// The left side runs to a, the right one from it.
    #[test]
    fn a_side_tells_its_ends_as_it_runs() {
        let sheet = calls::keep(&[0, 0, 5, 7, 2, 0], 2).unwrap();
        let text = String::from_utf8(all(&sheet).unwrap()).unwrap();
        assert!(text.starts_with(
            "0 left-side 1 0 exact rounded\n1 right-side 1 0 rounded exact\n2 start-cap 1 0\n"
        ));
    }

    #[test]
    fn refusals_come_through() {
        let sheet = calls::keep(&[0, 0, 5, 20, 0, 5], 2).unwrap();
        let refused = one(&sheet, 16);
        assert!(matches!(
            refused,
            Err(Failure::Refused(Refusal::NoEdge(16)))
        ));
        let refused = all(&sheet[1..]);
        assert!(matches!(
            refused,
            Err(Failure::Refused(Refusal::NotOutline))
        ));
        // a header that says more edges than there is memory for
        let mut sheet = sheet;
        sheet[16..20].fill(0xff);
        let refused = all(&sheet);
        assert!(matches!(
            refused,
            Err(Failure::Refused(Refusal::NotOutline))
        ));
    }

    #[test]
    fn a_word_by_itself_is_a_number_or_a_name() {
        let names = |edge: &str, sheet: Option<&str>| {
            named(Some(edge.into()), sheet.map(PathBuf::from)).ok()
        };
        let sheet = |name: &str| Some(PathBuf::from(name));
        assert_eq!(names("7", None), Some((Some(7), None)));
        assert_eq!(names("7", Some("8")), Some((Some(7), sheet("8"))));
        for name in ["sheet", "-", "./7", "7.sheet", "", "+7"] {
            assert_eq!(names(name, None), Some((None, sheet(name))));
            assert_eq!(names(name, Some("8")), None);
        }
        for word in ["-1", "99999999999999999999"] {
            assert_eq!(names(word, None), None);
        }
        assert_eq!(named(None, None).ok(), Some((None, None)));
    }
}
