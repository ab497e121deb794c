//! A path as text: a vertex a line, x y radius, and after it the point number
//! that it has, if any; or a kerb, x y. Blank lines count for nothing, and neither
//! does what follows a `#` on a line.

use crate::failure::Failure;
use crate::words::whole;
use sehmelir::Vertex;

/// The vertices of a path text, or the first line that is none.
pub fn path(text: &[u8]) -> Result<Vec<Vertex>, Failure> {
    let vertices = lines(text).map(|(line, words)| vertex(&words).ok_or(Failure::Line(line)));
    vertices.collect()
}

/// The numbers of a path text without point numbers, three a vertex.
pub fn numbers(text: &[u8]) -> Result<Vec<i32>, Failure> {
    let vertices = path(text)?.into_iter();
    Ok(vertices.flat_map(<[i32; 3]>::from).collect())
}

/// The numbers of a kerb's text, two a vertex, or the first line that has not as
/// many.
pub fn pairs(text: &[u8]) -> Result<Vec<i32>, Failure> {
    let pairs = lines(text).map(|(line, words)| pair(&words).ok_or(Failure::PairLine(line)));
    Ok(pairs.collect::<Result<Vec<[i32; 2]>, _>>()?.concat())
}

/// The vertex of a line's words: three numbers, and a fourth if it has a point
/// number.
fn vertex(words: &[&[u8]]) -> Option<Vertex> {
    let (&[x, y, radius], number) = words.split_first_chunk()?;
    Some(Vertex {
        x: whole(x)?,
        y: whole(y)?,
        radius: whole(radius)?,
        number: match number {
            [] => 0,
            [number] => whole(number)?,
            _ => return None,
        },
    })
}

/// The point of a line's words.
fn pair(words: &[&[u8]]) -> Option<[i32; 2]> {
    let &[x, y] = words else {
        return None;
    };
    Some([whole(x)?, whole(y)?])
}

/// The lines of a text that have words, with their numbers, from 1 on.
fn lines(text: &[u8]) -> impl Iterator<Item = (usize, Vec<&[u8]>)> {
    let lines = text.split(|&byte| byte == b'\n').map(words);
    (1..).zip(lines).filter(|(_, words)| !words.is_empty())
}

/// The words of a line before a `#`: tabs and carriage returns count as spaces.
fn words(line: &[u8]) -> Vec<&[u8]> {
    let comment = line.iter().position(|&byte| byte == b'#');
    line[..comment.unwrap_or(line.len())]
        .split(|byte| b" \t\r".contains(byte))
        .filter(|word| !word.is_empty())
        .collect()
}

/// Rows of numbers, one a line: a path's vertices, or edges.
pub fn rows<const WIDTH: usize>(rows: &[[i32; WIDTH]]) -> Vec<u8> {
    let mut text = Vec::new();
    for row in rows {
        for (place, number) in row.iter().enumerate() {
            if place > 0 {
                text.push(b' ');
            }
            push_number(&mut text, *number);
        }
        text.push(b'\n');
    }
    text
}

/// A path's vertices, one a line, and after each the point number that it has, if
/// that is not 0.
pub fn numbered_rows(path: &[[i32; 3]], numbers: &[u32]) -> Vec<u8> {
    let mut text = Vec::new();
    for (vertex, &number) in path.iter().zip(numbers) {
        text.extend(rows(&[*vertex]));
        if number != 0 {
            text.pop();
            text.push(b' ');
            push_digits(&mut text, number);
            text.push(b'\n');
        }
    }
    text
}

/// A number in decimal digits. The standard library's own way takes three times
/// as long, and a boundary may have millions of them.
fn push_number(text: &mut Vec<u8>, number: i32) {
    if number < 0 {
        text.push(b'-');
    }
    push_digits(text, number.unsigned_abs());
}

/// The same of a number that has no sign.
pub fn push_digits(text: &mut Vec<u8>, mut rest: u32) {
    let start = text.len();
    while rest > 9 {
        text.push(b'0' + (rest % 10) as u8);
        rest /= 10;
    }
    text.push(b'0' + rest as u8);
    text[start..].reverse();
}

#[cfg(test)]
mod tests {
    use super::{numbered_rows, numbers, pairs, path, rows};
    use crate::failure::Failure;

    #[test]
    fn a_text_is_read_and_written_again() {
        let text = b"0 0 5 # a post\n\n#\n\t-3\t4 007\r\n  1  2  3";
        let read = numbers(text).unwrap();
        assert_eq!(read, [0, 0, 5, -3, 4, 7, 1, 2, 3]);
        let (vertices, _) = read.as_chunks::<3>();
        assert_eq!(rows(vertices), b"0 0 5\n-3 4 7\n1 2 3\n");
    }

    #[test]
    fn a_point_number_is_told_where_there_is_one() {
        let path = [[0, 0, 5], [-3, 4, 7], [1, 2, 3]];
        let text = numbered_rows(&path, &[411, 0, 4_294_967_295]);
        assert_eq!(text, b"0 0 5 411\n-3 4 7\n1 2 3 4294967295\n");
    }

    #[test]
    fn a_point_number_may_follow() {
        let text = b"0 0 5 411\n-3 4 7\n1 2 3 4294967295 # last\n0 0 1 0\n";
        let read = path(text).unwrap();
        let told: Vec<u32> = read.iter().map(|vertex| vertex.number).collect();
        assert_eq!(told, [411, 0, u32::MAX, 0]);
        let path: Vec<[i32; 3]> = read.into_iter().map(<[i32; 3]>::from).collect();
        assert_eq!(path, [[0, 0, 5], [-3, 4, 7], [1, 2, 3], [0, 0, 1]]);
        assert_eq!(numbers(text).unwrap(), path.as_flattened());
        let due = b"0 0 5 411\n-3 4 7\n1 2 3 4294967295\n0 0 1\n";
        assert_eq!(numbered_rows(&path, &told), due);
    }

    #[test]
    fn a_kerb_has_two_numbers_a_line() {
        assert_eq!(pairs(b"# kerb: 5\n0 0\n20 -7").unwrap(), [0, 0, 20, -7]);
        for (text, due) in [(&b"1 2 3"[..], 1), (b"1 2\n3", 2)] {
            assert!(matches!(pairs(text), Err(Failure::PairLine(line)) if line == due));
        }
    }

    #[test]
    fn numbers_are_written_whole() {
        let row = [[0, -7, 10, i32::MAX, i32::MIN]];
        assert_eq!(rows(&row), b"0 -7 10 2147483647 -2147483648\n");
    }

    #[test]
    fn no_text_is_no_vertex() {
        assert_eq!(numbers(b"").unwrap(), []);
        assert_eq!(rows::<3>(&[]), b"");
    }

    #[test]
    fn the_first_line_that_is_no_vertex_is_told() {
        for (text, due) in [
            (&b"1 2"[..], 1),
            (b"1 2 3 4 5", 1),
            (b"1 2 3 -4", 1),
            (b"1 2 3\n1 2 3 4294967296", 2),
            (b"1 2 3\n4 5 x\n6", 2),
            (b"\n\n1 2 # 3", 3),
            (b"1 2 2147483648", 1),
        ] {
            assert!(matches!(numbers(text), Err(Failure::Line(line)) if line == due));
        }
    }
}
