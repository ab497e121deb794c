//! Files of the oldest chunks: 12 bytes a vertex, which are x, y and full width
//! as little-endian floats of 32 bits.

use crate::failure::Failure;
use sehmelir::{take_coordinate, take_width, Refusal};

/// The floats of a file, three a vertex.
pub fn floats(bytes: &[u8]) -> Result<Vec<f32>, Failure> {
    if bytes.len() % 12 != 0 {
        return Err(Failure::Uneven(bytes.len()));
    }
    let float = |word: &[u8]| f32::from_le_bytes([word[0], word[1], word[2], word[3]]);
    Ok(bytes.chunks_exact(4).map(float).collect())
}

/// The file of so many vertices.
pub fn bytes(vertices: &[[f32; 3]]) -> Vec<u8> {
    let floats = vertices.as_flattened().iter();
    floats.flat_map(|float| float.to_le_bytes()).collect()
}

/// A failed import: where a float was not taken, that float and why.
pub fn not_imported(failure: Failure, floats: &[f32]) -> Failure {
    let Failure::Refused(Refusal::NotTaken(place)) = failure else {
        return failure;
    };
    let value = floats[place];
    let taken = match place % 3 {
        2 => take_width(value),
        _ => take_coordinate(value),
    };
    match taken {
        Err(untaken) => Failure::Untaken(place, untaken),
        Ok(_) => failure,
    }
}

/// A failed export: where a number was not written, that number.
pub fn not_exported(failure: Failure, path: &[i32]) -> Failure {
    match failure {
        Failure::Refused(Refusal::NotTaken(place)) => Failure::Inexact(place, path[place]),
        other => other,
    }
}

#[cfg(test)]
mod tests {
    use super::{bytes, floats, not_exported, not_imported};
    use crate::failure::Failure;
    use sehmelir::{Refusal, Untaken};

    #[test]
    fn a_file_is_read_and_written_again() {
        let vertices = [[0.0, -1500.0, 650.0], [-0.0, f32::MAX, 2.5]];
        let file = bytes(&vertices);
        assert_eq!(file.len(), 24);
        assert_eq!(file[4..8], [0x00, 0x80, 0xBB, 0xC4]);
        assert_eq!(floats(&file).unwrap(), vertices.as_flattened());
        assert_eq!(floats(&[]).unwrap(), []);
    }

    #[test]
    fn a_file_is_whole_vertices() {
        for length in [1, 4, 11, 13] {
            let refused = floats(&vec![0; length]);
            assert!(matches!(refused, Err(Failure::Uneven(told)) if told == length));
        }
    }

    #[test]
    fn what_is_not_taken_is_told() {
        let refused = |place| Failure::Refused(Refusal::NotTaken(place));
        let told = not_imported(refused(2), &[0.0, 0.0, 3.0]);
        assert!(matches!(told, Failure::Untaken(2, Untaken::OddWidth(3.0))));
        let told = not_imported(refused(0), &[2.5, 0.0, 3.0]);
        assert!(matches!(told, Failure::Untaken(0, Untaken::Fraction(2.5))));
        let told = not_exported(refused(1), &[0, 16777217, 0]);
        assert!(matches!(told, Failure::Inexact(1, 16777217)));
    }
}
