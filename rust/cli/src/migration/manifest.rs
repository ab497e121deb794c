//! The manifest: a line for each file of the archive, in the archive's order,
//! its fields set apart by tabs.

use crate::failure::Failure;
use crate::ranges::{counted, number};
use crate::words::whole;
use sehmelir::Refusal;
use std::collections::BTreeMap;
use std::ffi::{OsStr, OsString};
use std::os::unix::ffi::{OsStrExt, OsStringExt};

/// The first line.
pub const HEADER: &[u8] = b"name\ttile\tkey\tvertices\tedges\tbytes\treply\tnumber\twords\n";

/// What became of a file.
#[derive(Clone, Debug, PartialEq)]
pub enum Outcome {
    /// Its outline stands in a tile.
    Taken {
        tile: String,
        key: u32,
        vertices: usize,
        edges: usize,
        bytes: usize,
    },
    /// It is refused: the library's reply, where it is the library that refuses,
    /// the number beside it, and words.
    Refused {
        reply: Option<u32>,
        number: Option<usize>,
        words: String,
    },
}

impl Outcome {
    /// The refusal of a file.
    pub fn refused(failure: &Failure) -> Outcome {
        let (reply, number) = match failure {
            Failure::Untaken(place, _) => (Some(13), Some(*place)),
            Failure::LongerThanTile(bytes, _) => (Some(5), Some(*bytes)),
            Failure::NumberTwice(key) => (Some(15), Some(*key as usize)),
            Failure::Refused(refusal) => (Some(refusal.reply()), number_beside(refusal)),
            Failure::Uneven(bytes) => (None, Some(*bytes)),
            _ => (None, None),
        };
        let told = failure.to_string();
        let words = told.split_once(": ").map_or(&told[..], |(_, words)| words);
        Outcome::Refused {
            reply,
            number,
            words: words.replace(['\t', '\n', '\r'], " "),
        }
    }

    /// Puts the line of a file after others.
    pub fn push(&self, name: &OsStr, text: &mut Vec<u8>) {
        push_name(name, text);
        let rest = match self {
            Outcome::Taken {
                tile,
                key,
                vertices,
                edges,
                bytes,
            } => format!("\t{tile}\t{key}\t{vertices}\t{edges}\t{bytes}\t0\t\t\n"),
            Outcome::Refused {
                reply,
                number,
                words,
            } => {
                let reply = reply.map_or(String::new(), |reply| reply.to_string());
                let number = number.map_or(String::new(), |number| number.to_string());
                format!("\t\t\t\t\t\t{reply}\t{number}\t{words}\n")
            }
        };
        text.extend_from_slice(rest.as_bytes());
    }

    /// The name and the outcome of a line, its end left out; none if it is no
    /// line of a manifest.
    pub fn of(line: &[u8]) -> Option<(OsString, Outcome)> {
        let fields: Vec<&[u8]> = line.split(|&byte| byte == b'\t').collect();
        let [name, tile, key, vertices, edges, bytes, reply, number, words] = fields[..] else {
            return None;
        };
        let maybe = |field: &[u8]| match field {
            b"" => Some(None),
            field => whole(field).map(Some),
        };
        let text = |field: &[u8]| String::from_utf8(field.to_vec()).ok();
        let outcome = match tile {
            b"" => Outcome::Refused {
                reply: maybe(reply)?.map(|reply| reply as u32),
                number: maybe(number)?,
                words: text(words)?,
            },
            _ => Outcome::Taken {
                tile: text(tile)?,
                key: whole(key)?,
                vertices: whole(vertices)?,
                edges: whole(edges)?,
                bytes: whole(bytes)?,
            },
        };
        Some((name_of(name)?, outcome))
    }
}

/// The number beside a refusal of an import or a keep.
fn number_beside(refusal: &Refusal) -> Option<usize> {
    match *refusal {
        Refusal::Uneven(number)
        | Refusal::TooMany(number)
        | Refusal::Outside(number)
        | Refusal::NoRoom(number)
        | Refusal::NotTaken(number)
        | Refusal::WithoutEdges(number) => Some(number),
        _ => None,
    }
}

/// Puts a name, with a backslash before what would be no name in a line.
fn push_name(name: &OsStr, text: &mut Vec<u8>) {
    for &byte in name.as_bytes() {
        match byte {
            b'\\' => text.extend_from_slice(b"\\\\"),
            b'\t' => text.extend_from_slice(b"\\t"),
            b'\n' => text.extend_from_slice(b"\\n"),
            b'\r' => text.extend_from_slice(b"\\r"),
            other => text.push(other),
        }
    }
}

/// The name that a field stands for.
fn name_of(field: &[u8]) -> Option<OsString> {
    let mut name = Vec::with_capacity(field.len());
    let mut bytes = field.iter();
    while let Some(&byte) = bytes.next() {
        name.push(match byte {
            b'\\' => match bytes.next()? {
                b'\\' => b'\\',
                b't' => b'\t',
                b'n' => b'\n',
                b'r' => b'\r',
                _ => return None,
            },
            other => other,
        });
    }
    Some(OsString::from_vec(name))
}

/// What became of many files, counted.
#[derive(Debug, Default, PartialEq)]
pub struct Tally {
    pub taken: usize,
    pub vertices: usize,
    pub edges: usize,
    pub bytes: usize,
    pub tiles: usize,
    /// How many were refused with each reply, and without one.
    refused: BTreeMap<Option<u32>, usize>,
}

impl Tally {
    /// Counts a file. Files of one tile follow one another: the tile that the
    /// last one stands in is handed from call to call.
    pub fn count(&mut self, outcome: &Outcome, last: &mut String) {
        match outcome {
            Outcome::Taken {
                tile,
                vertices,
                edges,
                bytes,
                ..
            } => {
                self.taken += 1;
                self.vertices += vertices;
                self.edges += edges;
                self.bytes += bytes;
                if tile != last {
                    self.tiles += 1;
                    last.clone_from(tile);
                }
            }
            Outcome::Refused { reply, .. } => *self.refused.entry(*reply).or_default() += 1,
        }
    }

    /// These and others.
    pub fn and(mut self, other: Tally) -> Tally {
        self.taken += other.taken;
        self.vertices += other.vertices;
        self.edges += other.edges;
        self.bytes += other.bytes;
        self.tiles += other.tiles;
        for (reply, count) in other.refused {
            *self.refused.entry(reply).or_default() += count;
        }
        self
    }

    pub fn refused(&self) -> usize {
        self.refused.values().sum()
    }

    pub fn files(&self) -> usize {
        self.taken + self.refused()
    }

    /// The counts in words: how many files, what stands in tiles, what is
    /// refused.
    pub fn told(&self) -> String {
        let files = counted(self.files(), "file", "files");
        let (taken, refused) = (number(self.taken), number(self.refused()));
        let [lines, vertices, edges, tiles] = [
            counted(self.taken, "line", "lines"),
            counted(self.vertices, "vertex", "vertices"),
            counted(self.edges, "edge", "edges"),
            counted(self.tiles, "tile", "tiles"),
        ];
        let megabytes = self.bytes as f64 / 1e6;
        let mut text = format!(
            "{files}: {taken} taken, {refused} refused\n\
             {lines} in {tiles}: {vertices}, {edges}, {megabytes:.1} MB\n"
        );
        let by_reply: Vec<String> = self.refused.iter().rev().map(of_reply).collect();
        if !by_reply.is_empty() {
            text += &format!("refused: {}\n", by_reply.join(", "));
        }
        text
    }
}

/// How many were refused with a reply.
fn of_reply((reply, count): (&Option<u32>, &usize)) -> String {
    let count = number(*count);
    match reply {
        Some(reply) => format!("{count} with reply {reply}"),
        None => format!("{count} without a reply"),
    }
}

#[cfg(test)]
mod tests {
    use super::{Outcome, Tally, HEADER};
    use crate::failure::Failure;
    use sehmelir::{Refusal, Untaken};
    use std::ffi::OsStr;
    use std::os::unix::ffi::OsStrExt;

    fn taken(tile: &str) -> Outcome {
        Outcome::Taken {
            tile: tile.to_string(),
            key: 12,
            vertices: 3,
            edges: 40,
            bytes: 712,
        }
    }

    #[test]
    fn a_line_is_written_and_read_again() {
        let fields = HEADER.split(|&byte| byte == b'\t').count();
        let refusals = [
            Failure::Untaken(7, Untaken::Fraction(2.5)),
            Failure::Refused(Refusal::WithoutEdges(2)),
            Failure::Uneven(13),
            Failure::NoNumber,
            Failure::NumberTwice(9),
            Failure::LongerThanTile(5000, 4000),
        ];
        let outcomes = refusals.iter().map(Outcome::refused);
        for outcome in outcomes.chain([taken("000000-0000.tile")]) {
            for name in [&b"line 1.old"[..], b"\t\n\\\r\\t\xff"] {
                let mut text = Vec::new();
                outcome.push(OsStr::from_bytes(name), &mut text);
                let line = text.strip_suffix(b"\n").unwrap();
                assert_eq!(line.split(|&byte| byte == b'\t').count(), fields);
                assert!(!line.contains(&b'\n'));
                let (read, again) = Outcome::of(line).unwrap();
                assert_eq!((read.as_bytes(), &again), (name, &outcome));
            }
        }
        assert_eq!(Outcome::of(b"line\t"), None);
    }

    #[test]
    fn a_refusal_has_reply_number_and_words() {
        let told = Outcome::refused(&Failure::Untaken(7, Untaken::Fraction(2.5)));
        let words = "a number is not taken; the first such is the y of vertex 2, \
                     at place 7, counted from 0: 2.5 has a fraction";
        let due = Outcome::Refused {
            reply: Some(13),
            number: Some(7),
            words: words.to_string(),
        };
        assert_eq!(told, due);
    }

    #[test]
    fn files_are_counted() {
        let mut tally = Tally::default();
        let mut last = String::new();
        for tile in ["a", "a", "b"] {
            tally.count(&taken(tile), &mut last);
        }
        let due = "3 files: 3 taken, 0 refused\n\
                   3 lines in 2 tiles: 9 vertices, 120 edges, 0.0 MB\n";
        assert_eq!(tally.told(), due);
        tally.count(&Outcome::refused(&Failure::NoNumber), &mut last);
        tally.count(&Outcome::refused(&Failure::NumberTwice(1)), &mut last);
        let tally = tally.and(Tally::default());
        assert_eq!((tally.files(), tally.refused()), (5, 2));
        let due = "refused: 1 with reply 15, 1 without a reply\n";
        assert!(tally.told().ends_with(due));
    }
}
