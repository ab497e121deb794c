//! One line of the archive: its file read and imported, or why it is refused.

use crate::failure::Failure;
use crate::oldest::not_imported;
use sehmelir::{Refusal, MOST_VERTICES};
use std::fs::OpenOptions;
use std::io::{self, ErrorKind, Read};
use std::os::unix::fs::OpenOptionsExt;
use std::path::Path;

/// The bytes of the longest line: no more of a file is read.
const MOST_BYTES: usize = 12 * MOST_VERTICES;

/// Why a line is not taken.
#[derive(Debug)]
pub enum Trouble {
    /// The file is refused, and the others go on.
    OfFile(Failure),
    /// The run cannot go on.
    OfRun(Failure),
}

impl From<Failure> for Trouble {
    fn from(failure: Failure) -> Trouble {
        Trouble::OfFile(failure)
    }
}

/// Memory for one line at a time.
pub struct Line {
    bytes: Vec<u8>,
    floats: Vec<f32>,
    path: Vec<i32>,
}

impl Line {
    pub fn new() -> Line {
        Line {
            bytes: vec![0; MOST_BYTES],
            floats: Vec::with_capacity(3 * MOST_VERTICES),
            path: vec![0; 3 * MOST_VERTICES],
        }
    }

    /// Reads a file and imports it: its path.
    pub fn take(&mut self, file: &Path) -> Result<&[i32], Trouble> {
        self.read(file)?;
        let imported = sehmelir::import(&self.floats, &mut self.path);
        imported.map_err(|refusal| not_imported(refusal.into(), &self.floats))?;
        Ok(self.path())
    }

    /// The path of the file that was taken last.
    pub fn path(&self) -> &[i32] {
        &self.path[..self.floats.len()]
    }

    /// The floats of the file that was read last.
    pub fn floats(&self) -> &[f32] {
        &self.floats
    }

    /// Reads a file's floats. A file that is longer than any path is not read:
    /// its length alone says why it is refused.
    pub fn read(&mut self, file: &Path) -> Result<(), Trouble> {
        self.floats.clear();
        let trouble = |error| of_reading(error, file);
        // without waiting: what is no file is opened too, and then refused
        let mut open = OpenOptions::new();
        open.read(true).custom_flags(libc::O_NONBLOCK);
        let mut opened = open.open(file).map_err(trouble)?;
        let told = opened.metadata().map_err(trouble)?;
        if !told.is_file() {
            return Err(Failure::NoFile.into());
        }
        let length = told.len() as usize;
        if !length.is_multiple_of(12) {
            return Err(uneven(length).into());
        }
        if length > MOST_BYTES {
            return Err(Failure::Refused(Refusal::TooMany(length / 12)).into());
        }
        let bytes = &mut self.bytes[..length];
        opened.read_exact(bytes).map_err(trouble)?;
        let (words, _) = bytes.as_chunks::<4>();
        let floats = words.iter().map(|&word| f32::from_le_bytes(word));
        self.floats.extend(floats);
        Ok(())
    }
}

/// The refusal of so many bytes, which are no whole vertices: the library's own
/// where they are whole floats.
fn uneven(bytes: usize) -> Failure {
    match bytes % 4 {
        0 => Failure::Refused(Refusal::Uneven(bytes / 4)),
        _ => Failure::Uneven(bytes),
    }
}

/// Whose trouble it is that a file cannot be read: its own where it is there all
/// the same, and else the run's, as where the archive's directory has gone.
fn of_reading(error: io::Error, file: &Path) -> Trouble {
    let own = [
        libc::EACCES,
        libc::EPERM,
        libc::ENOENT,
        libc::ELOOP,
        libc::ENXIO,
        libc::ENODEV,
        libc::EIO,
    ];
    let is_own = error.raw_os_error().is_some_and(|code| own.contains(&code));
    if is_own && file.symlink_metadata().is_ok() {
        return Trouble::OfFile(Failure::Unread(error));
    }
    let error = match error.kind() {
        ErrorKind::UnexpectedEof => io::Error::other("it has become shorter meanwhile"),
        _ => error,
    };
    Trouble::OfRun(Failure::Unread(error).of(file))
}

/// How an outline differs from an old line, if it does: it is read, exported, and
/// held against the old floats bit for bit, minus zero apart.
pub fn difference(outline: &[u8], old: &[f32], grade: u32, back: &mut Back) -> Result<(), String> {
    let read = sehmelir::read(outline, &mut back.path);
    let kept = read.map_err(|refusal| Failure::Refused(refusal).to_string())?;
    if kept.grade != grade {
        return Err(format!("its grade is {}, and {grade} is due", kept.grade));
    }
    if kept.form != sehmelir::Form::Stroke || 3 * kept.vertices != old.len() {
        let (vertices, due) = (kept.vertices, old.len() / 3);
        return Err(format!(
            "it has {vertices} vertices, and the old line {due}"
        ));
    }
    let exported = sehmelir::export(&back.path[..old.len()], &mut back.floats);
    exported.map_err(|refusal| Failure::Refused(refusal).to_string())?;
    match first_other(&back.floats[..old.len()], old) {
        None => Ok(()),
        Some(place) => {
            let (new, old) = (f64::from(back.floats[place]), f64::from(old[place]));
            let (vertex, name) = (place / 3, ["x", "y", "width"][place % 3]);
            Err(format!(
                "{name} of vertex {vertex}, at place {place}, is {new:?}, and was {old:?}"
            ))
        }
    }
}

/// Memory for one line that is read back.
pub struct Back {
    path: Vec<i32>,
    floats: Vec<f32>,
}

impl Back {
    pub fn new() -> Back {
        Back {
            path: vec![0; 3 * MOST_VERTICES],
            floats: vec![0.0; 3 * MOST_VERTICES],
        }
    }
}

/// The first place where floats are not the old ones bit for bit; zero stands for
/// minus zero.
fn first_other(new: &[f32], old: &[f32]) -> Option<usize> {
    let due = |&old: &f32| match old.to_bits() {
        0x8000_0000 => 0,
        bits => bits,
    };
    let same = |(new, old): (&f32, &f32)| new.to_bits() == due(old);
    std::iter::zip(new, old).position(|pair| !same(pair))
}

#[cfg(test)]
mod tests {
    use super::{difference, first_other, uneven, Back};
    use crate::calls;
    use crate::failure::Failure;
    use sehmelir::Refusal;

    #[test]
    fn floats_are_held_bit_for_bit() {
        assert_eq!(first_other(&[1.0, 0.0], &[1.0, -0.0]), None);
        assert_eq!(first_other(&[1.0, -0.0], &[1.0, 0.0]), Some(1));
        assert_eq!(first_other(&[1.0, -0.0], &[1.0, -0.0]), Some(1));
        let next = f32::from_bits(1.0f32.to_bits() + 1);
        assert_eq!(first_other(&[next], &[1.0]), Some(0));
        assert_eq!(first_other(&[0.0], &[f32::from_bits(1)]), Some(0));
    }

    #[test]
    fn an_outline_is_held_against_its_line() {
        let outline = calls::keep(&[0, 7, 5, 20, 0, 5], 4).unwrap();
        let old = [-0.0, 7.0, 10.0, 20.0, 0.0, 10.0];
        let mut back = Back::new();
        let mut told = |outline: &[u8], old: &[f32], grade| {
            difference(outline, old, grade, &mut back)
                .err()
                .unwrap_or_default()
        };
        assert_eq!(told(&outline, &old, 4), "");
        assert_eq!(told(&outline, &old, 5), "its grade is 4, and 5 is due");
        assert_eq!(
            told(&outline, &old[..3], 4),
            "it has 2 vertices, and the old line 1"
        );
        let moved = [-0.0, 7.0, 10.0, 20.0, 0.0, 12.0];
        let due = "width of vertex 1, at place 5, is 10.0, and was 12.0";
        assert_eq!(told(&outline, &moved, 4), due);
        let mut spoiled = outline.clone();
        let last = spoiled.len() - 1;
        spoiled[last] ^= 1;
        assert!(told(&spoiled, &old, 4).contains("reply 8"));
    }

    #[test]
    fn lengths_that_are_no_vertices() {
        assert!(matches!(uneven(16), Failure::Refused(Refusal::Uneven(4))));
        assert!(matches!(uneven(13), Failure::Uneven(13)));
    }
}
